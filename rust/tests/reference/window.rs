//! Request (n): the starts of each pump in a window of the day, over a card.

use super::card::{is_blank, RECORD};
use super::compare::{read, QUARTERS};
use std::collections::HashMap;
use std::ops::Range;

/// The pumps.
pub const PUMPS: usize = 128;

/// The numbers of a pump.
pub const ROW: usize = 9;

/// The numbers of a report.
pub const REPORT: usize = PUMPS * ROW + 3;

/// The most records that are looked at.
pub const MOST: usize = 1_000_000;

/// The report for lent numbers of this count: a row for each pump, the refused and the blank records, and 1 if there is a further one.
pub fn report(card: &[u8], first: u8, end: u8, length: usize) -> Result<Vec<u64>, u8> {
    if first >= end || end as usize > QUARTERS {
        return Err(21);
    }
    if length != REPORT {
        return Err(2);
    }
    let pieces: Vec<&[u8]> = card.chunks(RECORD).collect();
    let looked_at = &pieces[..pieces.len().min(MOST)];
    let (blank, records): (Vec<&[u8]>, Vec<&[u8]>) = looked_at.iter().partition(|piece| is_blank(piece));
    // Equal records are read once.
    let mut readings = HashMap::new();
    for &record in &records {
        readings.entry(record).or_insert_with(|| read(record).map(|(_, symbols)| symbols));
    }
    let mut sheets: Vec<Vec<&[u8]>> = vec![vec![]; PUMPS];
    for symbols in records.iter().flat_map(|record| &readings[record]) {
        sheets[symbols[99] as usize].push(symbols);
    }
    let read: usize = sheets.iter().map(Vec::len).sum();
    let window = first as usize..end as usize;
    let rows = sheets.iter().flat_map(|sheets| row(sheets, &window));
    Ok(rows.chain([records.len() - read, blank.len(), (pieces.len() > MOST) as usize].map(|count| count as u64)).collect())
}

/// The numbers of a pump: its sheets; the sum, the counts of 127, the highest count and its earliest date; quotient and remainder of the
/// mean.
fn row(sheets: &[&[u8]], window: &Range<usize>) -> [u64; ROW] {
    let counts = || sheets.iter().flat_map(|symbols| &symbols[window.clone()]);
    let highest = match counts().max() {
        Some(&highest) => highest,
        None => return [0; ROW],
    };
    let (number, sum) = (sheets.len() as u64, counts().map(|&count| count as u64).sum::<u64>());
    let full = counts().filter(|&&count| count == 127).count() as u64;
    let reaches = |symbols: &&&[u8]| symbols[window.clone()].contains(&highest);
    let days = sheets.iter().filter(reaches).map(|symbols| [symbols[96], symbols[97], symbols[98]]);
    let [year, month, day] = days.min().expect("a sheet with the highest count").map(u64::from);
    [number, sum, full, highest as u64, year, month, day, sum / number, sum % number]
}

//! Day sheets by the reference, and records of them.

use super::wear::{spoiled, with_any_bytes};
use super::Chance;
use crate::reference::card::{record, RECORD};
use crate::reference::sheet::{write, SIZE};

/// Random symbols with a date that exists.
pub fn random_symbols(chance: &mut Chance) -> Vec<u8> {
    let mut symbols = chance.symbols(SIZE, 128);
    symbols[97] = 1 + chance.below(12) as u8;
    symbols[98] = 1 + chance.below(28) as u8;
    symbols
}

/// The day sheet of these symbols as a record.
pub fn sheet_record(symbols: &[u8]) -> Vec<u8> {
    record(7, &write(7, symbols, 132).expect("symbols of a sheet"), &[])
}

/// The record of a sheet with these counts, of a day and a pump.
pub fn sheet(counts: &[(usize, u8)], [year, month, day]: [u8; 3], pump: u8) -> Vec<u8> {
    let mut symbols = vec![0; SIZE];
    counts.iter().for_each(|&(quarter, count)| symbols[quarter] = count);
    symbols[96..].copy_from_slice(&[year, month, day, pump]);
    sheet_record(&symbols)
}

/// Slots for a card of any length: sheets of two pumps, a blank slot, and a record that is no sheet.
pub fn five_slots() -> [Vec<u8>; 5] {
    [
        sheet(&[(0, 1), (95, 127)], [24, 2, 29], 0),
        vec![255; RECORD],
        sheet(&[(0, 5), (1, 126)], [24, 2, 28], 127),
        record(3, &[0; 12], &[]),
        sheet(&[(0, 4)], [23, 12, 31], 0),
    ]
}

/// The record of these symbols with so many wrong symbols, and so many marks at which any bytes stand.
pub fn worn_sheet(chance: &mut Chance, symbols: &[u8], wrong: usize, marked: usize) -> Vec<u8> {
    let word = write(7, symbols, 132).expect("symbols of a sheet");
    let chosen = chance.places(wrong + marked, 132);
    let (wrong, marks) = chosen.split_at(wrong);
    let word = spoiled(chance, 7, &word, wrong);
    record(7, &with_any_bytes(chance, &word, marks), marks)
}

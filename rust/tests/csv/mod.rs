//! What the tests of day sheets as CSV share: texts by the reference, and what both programs must do.
#![allow(dead_code)] // each test file uses its part

pub mod reading;

use crate::reference::compare::QUARTERS;
use crate::reference::sheet::exists;
use crate::tools::calls;
use crate::tools::programs::Run;
use crate::tools::sheets::{random_symbols, sheet_record};
use crate::tools::Chance;
use std::path::Path;
use std::process::{Child, Stdio};

/// The header of a text with the columns slot and changed, or without, as a line.
pub fn header(with_slots: bool) -> String {
    let times: String = (0..QUARTERS).map(|quarter| format!(",{:02}:{:02}", quarter / 4, quarter % 4 * 15)).collect();
    format!("{}{times}\n", if with_slots { "slot,date,pump,changed" } else { "date,pump" })
}

/// The columns of a sheet: its slot and the number of changed places stand before and behind date and pump, where they are given.
pub fn columns(symbols: &[u8], place: Option<(usize, u8)>) -> Vec<String> {
    let (counts, day) = symbols.split_at(QUARTERS);
    let mut columns = vec![format!("{}-{:02}-{:02}", 2000 + u32::from(day[0]), day[1], day[2]), day[3].to_string()];
    if let Some((slot, changed)) = place {
        columns.insert(0, slot.to_string());
        columns.push(changed.to_string());
    }
    columns.extend(counts.iter().map(u8::to_string));
    columns
}

pub fn line(symbols: &[u8], place: Option<(usize, u8)>) -> String {
    columns(symbols, place).join(",") + "\n"
}

/// Symbols of a sheet of any day.
pub fn symbols(chance: &mut Chance) -> Vec<u8> {
    let mut symbols = random_symbols(chance);
    let high = [1, 4, 12, 128][chance.below(4)];
    symbols[..QUARTERS].iter_mut().for_each(|count| *count = chance.below(high) as u8);
    let day = 29 + chance.below(3) as u8;
    if exists(symbols[96], symbols[97], day) {
        symbols[98] = day;
    }
    symbols
}

/// The text of sheets, with the columns slot and changed or without.
pub fn text_of(sheets: &[Vec<u8>], with_slots: bool) -> String {
    let place = |at: usize| with_slots.then_some((at + 1, 0));
    let lines: String = sheets.iter().enumerate().map(|(at, symbols)| line(symbols, place(at))).collect();
    header(with_slots) + &lines
}

pub fn records_of(sheets: &[Vec<u8>]) -> Vec<u8> {
    sheets.iter().flat_map(|symbols| sheet_record(symbols)).collect()
}

/// Symbols of so many sheets.
pub fn random_sheets(chance: &mut Chance, count: usize) -> Vec<Vec<u8>> {
    (0..count).map(|_| symbols(chance)).collect()
}

/// Zeros before the numbers of a line, no more than each may have, up to so many.
fn lengthen(columns: &mut [String], zeros: &mut usize) {
    let full = columns.len() == 100;
    for (at, column) in columns.iter_mut().enumerate().filter(|(at, _)| *at != usize::from(full)) {
        let more = (if full && [0, 3].contains(&at) { 20 } else { 3 } - column.len()).min(*zeros);
        *column = "0".repeat(more) + column;
        *zeros -= more;
    }
}

/// The text of sheets, longer by so many zeros, which stand as far to the front as they may.
pub fn lengthened(sheets: &[Vec<u8>], with_slots: bool, mut zeros: usize, end: &str) -> String {
    let mut text = header(with_slots).trim_end().to_owned() + end;
    for symbols in sheets {
        let mut columns = columns(symbols, with_slots.then_some((1, 0)));
        lengthen(&mut columns, &mut zeros);
        text += &(columns.join(",") + end);
    }
    assert_eq!(zeros, 0, "there is room for the zeros");
    text
}

/// The failures of a program that is called with a file alone, and what is none.
pub fn fails_as_it_should(name: &str, folder: &Path, file: &str, begun: &str) {
    calls::fails_as_it_should(name, &[], folder, file, begun);
    calls::runs_as_before(name, &[], folder, file);
}

/// The arguments of a program that takes a file.
pub fn takes_arguments(name: &str, usage: &str) {
    calls::takes_arguments(name, &["a"], usage);
}

/// A program that reads and writes pipes, in no more memory than a few batches need.
pub fn streaming(name: &str, input: Stdio) -> Child {
    Run::shell("ulimit -v 50000 && exec \"$0\"", name, &[]).input(input).begin()
}

//! Calls of the field and of the code, and the two of day sheets.

use super::line::call;
use super::reference::search::restore_at;
use super::reference::{encode, invert, is_codeword, items, masked, modulus, multiply, order, places, raise, read_data, sheet, WIDTHS};
use super::tools::sheets::random_symbols;
use super::tools::wear::{codeword, dependent, hostile};
use super::tools::Chance;

pub fn record(chance: &mut Chance) {
    for _ in 0..60 {
        symbols(chance);
    }
    for _ in 0..40 {
        data(chance);
        sheets(chance);
    }
    for round in 0..150 {
        restored(chance, round);
    }
    for width in [3, 5] {
        let marks = dependent(chance, width); // several codewords agree outside these
        let word = codeword(chance, width);
        put_restored(width, &word, &marks, None);
    }
}

/// A width, most often one of the code.
fn width(chance: &mut Chance) -> u8 {
    match chance.below(8) {
        0 => [0, 6, 8, 255][chance.below(4)],
        n => WIDTHS[n % WIDTHS.len()],
    }
}

/// A length, most often the one wanted.
fn length(chance: &mut Chance, wanted: usize) -> usize {
    [wanted - 1, wanted + 1, 0].get(chance.below(20)).copied().unwrap_or(wanted)
}

/// Questions 1 and 6 of the field's calls.
fn ask(width: u8, symbols: &[u8]) -> Result<(), u8> {
    match modulus(width) {
        None => Err(1),
        Some(_) if symbols.iter().any(|&symbol| symbol as usize >= order(width)) => Err(6),
        Some(_) => Ok(()),
    }
}

fn symbols(chance: &mut Chance) {
    let width = width(chance);
    let bound = [order(width.min(7)), 1, 256][chance.below(6).saturating_sub(3)];
    let (a, b, e) = (chance.below(bound) as u8, chance.below(bound) as u8, chance.below(65_536) as u16);
    let (both, one) = (ask(width, &[a, b]), ask(width, &[a]));
    let line = |name| call(name).number("width", width).number("a", a);
    line("sum").number("b", b).answered(both.map(|_| a ^ b), |line, value| line.number("value", value));
    line("product").number("b", b).answered(both.map(|_| multiply(width, a, b)), |line, value| line.number("value", value));
    line("power").number("e", e).answered(one.map(|_| raise(width, a, e)), |line, value| line.number("value", value));
    let inverse = one.and_then(|_| invert(width, a).ok_or(10));
    line("inverse").answered(inverse, |line, value| line.number("value", value));
}

/// Data encoded; a word tested and read, a codeword every other time.
fn data(chance: &mut Chance) {
    let width = width(chance);
    let known = if modulus(width).is_some() { width } else { 3 };
    let (data_length, word_length) = (length(chance, items(known)), length(chance, places(known)));
    let bound = order(known) + (chance.below(6) == 0) as usize * 8;
    let data = chance.symbols(data_length, bound);
    let line = |name| call(name).number("width", width);
    let encoded = encode(width, &data, word_length);
    line("encode").bytes("data", &data).number("length", word_length as u64).answered(encoded, |line, word| line.bytes("after", &word));
    let word = if chance.below(2) == 0 { codeword(chance, known) } else { chance.symbols(word_length, bound) };
    let tested = is_codeword(width, &word);
    line("is_codeword").bytes("word", &word).answered(tested, |line, value| line.number("value", value as u8));
    let read = read_data(width, &word, data_length);
    line("read_data").bytes("word", &word).number("length", data_length as u64).answered(read, |line, data| line.bytes("after", &data));
}

/// A day written and read: now and then at another width, with a date that does not exist, or with unused symbols that are not 0.
fn sheets(chance: &mut Chance) {
    let width = [3, 5, 6].get(chance.below(15)).copied().unwrap_or(7);
    let mut symbols = random_symbols(chance);
    let length = length(chance, 132);
    match chance.below(12) {
        0 => symbols[96..99].copy_from_slice(&[100, 2, 29]),
        1 => symbols[97] = [0, 13][chance.below(2)],
        2 => symbols[chance.below(100)] = 128,
        3 => symbols.truncate(99),
        _ => {}
    }
    let written = sheet::write(width, &symbols, length);
    let line = call("write_sheet").number("width", width).bytes("symbols", &symbols).number("length", length as u64);
    line.answered(written, |line, word| line.bytes("after", &word));

    symbols.resize(127, 0);
    symbols[100 + chance.below(27)] = [1, 2].get(chance.below(8)).copied().unwrap_or(0);
    let word = match chance.below(8) {
        0 => vec![0; places(width.min(5))],
        1 => chance.symbols(132, 128),
        _ => encode(7, &symbols, 132).unwrap_or_else(|_| vec![0; 132]),
    };
    let read = sheet::read(width, &word, 100);
    call("read_sheet")
        .number("width", width)
        .bytes("word", &word)
        .number("length", 100u8)
        .answered(read, |line, symbols| line.bytes("after", &symbols));
}

/// A worn word restored, with a reach every other time, and the syndromes of every third.
fn restored(chance: &mut Chance, round: usize) {
    let (width, word, mut marks) = hostile(chance);
    if width == 7 {
        marks.truncate(4); // the reference takes long with five
    }
    if round % 3 == 0 {
        let line = call("syndromes").number("width", width).bytes("word", &word).bytes("marks", &marks);
        line.answered(masked::sums(width, &word, &marks), |line, sums| line.numbers("values", &sums));
    }
    let reach = (chance.below(2) == 0).then(|| [0, 0, 1, 1, 2, 3][chance.below(6)]);
    put_restored(width, &word, &marks, reach);
}

fn put_restored(width: u8, word: &[u8], marks: &[u8], reach: Option<u8>) {
    let restored = restore_at(width, word, marks, reach);
    let line = call("restore_word").number("width", width).bytes("word", word).bytes("marks", marks).reach(reach);
    line.answered(restored, |line, (changed, word)| line.number("value", changed).bytes("after", &word));
}

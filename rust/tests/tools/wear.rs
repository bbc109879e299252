//! Codewords by the reference, and records whose cells wore.

use super::Chance;
use crate::reference::card::{record_of, size, MARKS, RECORD};
use crate::reference::search::most_marks;
use crate::reference::{encode, items, order, places, raise, WIDTHS};

/// A codeword of random data, by the reference.
pub fn codeword(chance: &mut Chance, width: u8) -> Vec<u8> {
    let data = chance.symbols(items(width), order(width));
    encode(width, &data, places(width)).expect("data of the width")
}

/// The word with zero data whose syndromes are the digits of a number below q^5.
pub fn word_of_syndromes(width: u8, number: usize) -> Vec<u8> {
    let digit = |place: usize| (number >> (width as usize * place)) % order(width);
    (0..places(width)).map(|place| if place < 5 { digit(place) as u8 } else { 0 }).collect()
}

/// The word with another symbol at each of the places.
pub fn spoiled(chance: &mut Chance, width: u8, word: &[u8], at: &[u8]) -> Vec<u8> {
    let mut wrong = word.to_vec();
    for &place in at {
        wrong[place as usize] ^= 1 + chance.below(order(width) - 1) as u8;
    }
    wrong
}

/// The word with any byte at each of the places.
pub fn with_any_bytes(chance: &mut Chance, word: &[u8], at: &[u8]) -> Vec<u8> {
    let mut bytes = word.to_vec();
    at.iter().for_each(|&place| bytes[place as usize] = chance.below(256) as u8);
    bytes
}

/// Five marks outside which some codeword other than zeros is zero: p_2, p_4 and three data places whose points add up to 0, so that the
/// columns of these three are dependent in the rows 0, 1 and 3 that are left (see case M of document 01).
pub fn dependent(chance: &mut Chance, width: u8) -> Vec<u8> {
    let point = |i: usize| raise(width, 2, i as u16);
    let mut data = chance.places(2, items(width));
    let third = point(data[0] as usize) ^ point(data[1] as usize);
    data.extend((0..items(width)).find(|&i| point(i) == third).map(|i| i as u8));
    [2, 4].into_iter().chain(data.iter().map(|i| 5 + i)).collect()
}

/// As many marks as are allowed, or fewer; at width 7, where the reference takes long with five, these are rare.
fn mark_count(chance: &mut Chance, width: u8) -> usize {
    match chance.below(1 + most_marks(width)) {
        5 if width == 7 && chance.below(12) > 0 => 4,
        count => count,
    }
}

/// A codeword with up to three wrong symbols and any bytes at up to `most` marks, and these marks. Of five marks, every other time, the
/// columns are dependent.
fn worn_word(chance: &mut Chance, width: u8, most: usize) -> (Vec<u8>, Vec<u8>) {
    let clean = codeword(chance, width);
    let marks = match mark_count(chance, width).min(most) {
        5 if chance.below(2) == 0 => dependent(chance, width),
        count => chance.places(count, places(width)),
    };
    let wrong = chance.below(4);
    let wrong = chance.places(wrong, places(width));
    let word = spoiled(chance, width, &clean, &wrong);
    (with_any_bytes(chance, &word, &marks), marks)
}

/// A record whose cells wore: up to five erasures, up to three wrong symbols, and now and then a byte anywhere that is another.
pub fn worn(chance: &mut Chance, width: u8) -> Vec<u8> {
    worn_of(chance, MARKS, width)
}

/// The same with so many mark bytes, and up to as many erasures.
pub fn worn_of(chance: &mut Chance, mark_bytes: usize, width: u8) -> Vec<u8> {
    let (word, marks) = worn_word(chance, width, mark_bytes);
    let mut bytes = record_of(mark_bytes, width, &word, &marks);
    if chance.below(3) == 0 {
        let at = [chance.below(9), chance.below(size(mark_bytes))][chance.below(2)];
        bytes[at] = [0, 1, 3, 4, 5, 6, 7, 255, chance.below(256) as u8][chance.below(9)];
    }
    bytes
}

/// A slot with so many mark bytes: a worn record of any width, or now and then a blank one.
pub fn slot_of(chance: &mut Chance, mark_bytes: usize) -> Vec<u8> {
    match chance.below(8) {
        0 => vec![255; size(mark_bytes)],
        n => worn_of(chance, mark_bytes, WIDTHS[n % WIDTHS.len()]),
    }
}

/// A card of so many slots, worn records and blank ones, and so many bytes of a further one.
pub fn worn_card(chance: &mut Chance, slots: usize, further: usize) -> Vec<u8> {
    let mut card: Vec<u8> = (0..=slots).flat_map(|_| slot_of(chance, MARKS)).collect();
    card.truncate(slots * RECORD + further);
    card
}

/// A width, a word and marks, as the restorer is lent them: a codeword with up to three wrong symbols and any bytes at up to five marks, in
/// which now and then one thing or two are not as a question wants them.
pub fn hostile(chance: &mut Chance) -> (u8, Vec<u8>, Vec<u8>) {
    let mut width = WIDTHS[chance.below(WIDTHS.len())];
    let (n, q) = (places(width), order(width));
    let (mut word, mut marks) = worn_word(chance, width, MARKS);
    for _ in 0..[0, 0, 1, 2][chance.below(4)] {
        match chance.below(6) {
            0 => width = [0, 1, 2, 6, 8, 128, 255, chance.below(256) as u8][chance.below(8)],
            1 => word.resize([0, n - 1, n + 1, n + 256, 132][chance.below(5)], 0),
            2 => marks.resize([4, 5, 6, 7, 255, 256, 261][chance.below(7)], chance.below(n) as u8),
            3 => marks.push([n as u8, 255, n as u8 + chance.below(256 - n) as u8][chance.below(3)]),
            4 => marks.extend(marks.first().copied()),
            _ => word.iter_mut().skip(chance.below(n)).take(1).for_each(|symbol| *symbol = (q + chance.below(256 - q)) as u8),
        }
    }
    (width, word, marks)
}

//! Request (k): a walk over a card, and a look at one of its records.

use super::card::{restore, HEADER, RECORD};

/// The most records that one step treats.
pub const STEP: u64 = 16;

/// The symbols that a look gives.
pub const ROW: usize = 132;

/// N, the records of a card: slots, and a short last piece.
pub fn records(card: &[u8]) -> u64 {
    card.chunks(RECORD).count() as u64
}

/// The next record and the card after a step of a walk that began with this length, or the refusal number.
pub fn step(length: u64, next: u64, card: &[u8]) -> Result<(u64, Vec<u8>), u8> {
    if card.len() as u64 != length {
        return Err(2);
    }
    let end = records(card) + 1;
    if next < 1 || next > end {
        return Err(17);
    }
    let further = end.min(next + STEP);
    let pieces = (1..).zip(card.chunks(RECORD));
    let after = pieces.flat_map(|(number, piece)| if next <= number && number < further { alone(piece) } else { piece.to_vec() });
    Ok((further, after.collect()))
}

/// A piece of a card after it was restored alone.
pub fn alone(piece: &[u8]) -> Vec<u8> {
    restore(piece).map_or(piece.to_vec(), |(_, restored)| restored)
}

/// The symbols of a record, for a lent row of this length.
pub fn look(card: &[u8], number: u64, row_length: usize) -> Result<Vec<u8>, u8> {
    if number < 1 || number > records(card) {
        return Err(17);
    }
    if row_length != ROW {
        return Err(2);
    }
    let piece = card.chunks(RECORD).nth(number as usize - 1).expect("a record of the card");
    restore(piece).map(|(_, restored)| restored[HEADER..].to_vec())
}

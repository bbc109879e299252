//! Records, cards and listings, as document 01 and requests (b) and (e) describe them, and the conversions of request (f). Words are
//! restored by `search`.

use super::{modulus, places, search};

/// Mark bytes of a record.
pub const MARKS: usize = 5;

/// Mark bytes of a record before request (e).
pub const OLD_MARKS: usize = 4;

/// Where the symbols of a record with so many mark bytes start.
pub const fn header(marks: usize) -> usize {
    2 + marks
}

/// Bytes of a record with so many mark bytes.
pub const fn size(marks: usize) -> usize {
    header(marks) + 132
}

/// Where the symbols of a record start.
pub const HEADER: usize = header(MARKS);

/// Bytes of a record.
pub const RECORD: usize = size(MARKS);

/// Bytes of a record before request (e).
pub const OLD_RECORD: usize = size(OLD_MARKS);

/// The limit of a listing.
pub const LISTED: usize = 1_000_000;

/// The record of a word with its marks.
pub fn record(width: u8, word: &[u8], marks: &[u8]) -> Vec<u8> {
    record_of(MARKS, width, word, marks)
}

/// The same with so many mark bytes.
pub fn record_of(mark_bytes: usize, width: u8, word: &[u8], marks: &[u8]) -> Vec<u8> {
    let mut bytes = vec![width, marks.len() as u8];
    bytes.extend(marks);
    bytes.resize(header(mark_bytes), 255);
    bytes.extend(word);
    bytes.resize(size(mark_bytes), 0);
    bytes
}

/// Is the piece a slot that was never written? A shorter one is not, even where all its bytes are 255.
pub fn is_blank(piece: &[u8]) -> bool {
    piece.len() == RECORD && is_unwritten(piece)
}

fn is_unwritten(slot: &[u8]) -> bool {
    slot.iter().all(|&byte| byte == 255)
}

/// What a piece of a card gets as a record: the number of changed places, or the refusal number.
pub fn judge(piece: &[u8]) -> Result<u8, u8> {
    restore(piece).map(|(changed, _)| changed)
}

/// The number of changed places with the restored record, or the refusal number.
pub fn restore(piece: &[u8]) -> Result<(u8, Vec<u8>), u8> {
    restore_of(MARKS, piece, None)
}

/// The same for a record with so many mark bytes, at a reach.
pub fn restore_of(mark_bytes: usize, piece: &[u8], reach: Option<u8>) -> Result<(u8, Vec<u8>), u8> {
    if piece.len() != size(mark_bytes) {
        return Err(2);
    }
    ask(mark_bytes, &[piece])?;
    let (width, marks) = (piece[0], &piece[2..2 + piece[1] as usize]);
    let word = &piece[header(mark_bytes)..][..places(width)];
    search::restore_at(width, word, marks, reach).map(|(changed, word)| (changed, record_of(mark_bytes, width, &word, &[])))
}

/// Questions 1, 3 and 4 of whole records with so many mark bytes, each put for all of them before the next.
fn ask(mark_bytes: usize, records: &[&[u8]]) -> Result<(), u8> {
    let known_width = |record: &&[u8]| modulus(record[0]).is_some();
    let few_marks = |record: &&[u8]| record[1] as usize <= mark_bytes.min(search::most_marks(record[0]));
    let padded = |record: &&[u8]| {
        let (unused, end) = (2 + record[1] as usize, header(mark_bytes) + places(record[0]));
        is_unwritten(&record[unused..header(mark_bytes)]) && record[end..].iter().all(|&byte| byte == 0)
    };
    match () {
        _ if !records.iter().all(known_width) => Err(1),
        _ if !records.iter().all(few_marks) => Err(3),
        _ if !records.iter().all(padded) => Err(8),
        _ => Ok(()),
    }
}

/// The card with records of 138 bytes as one with records of 139, for a lent output of this length.
pub fn to_new(card: &[u8], length: usize) -> Result<Vec<u8>, u8> {
    convert(OLD_MARKS, MARKS, card, length)
}

/// The card with records of 139 bytes as one with records of 138, for a lent output of this length.
pub fn to_old(card: &[u8], length: usize) -> Result<Vec<u8>, u8> {
    convert(MARKS, OLD_MARKS, card, length)
}

/// A card with so many mark bytes in a record as one with so many others.
fn convert(from: usize, to: usize, card: &[u8], length: usize) -> Result<Vec<u8>, u8> {
    let slots = card.chunks(size(from));
    if card.len() % size(from) != 0 || length != slots.len() * size(to) {
        return Err(2);
    }
    let records: Vec<&[u8]> = slots.clone().filter(|slot| !is_unwritten(slot)).collect();
    ask(from, &records)?;
    if records.iter().any(|record| record[1] as usize > to) {
        return Err(15);
    }
    let converted = slots.map(|slot| match slot {
        slot if is_unwritten(slot) => vec![255; size(to)],
        record => record_of(to, record[0], &record[header(from)..], &record[2..2 + record[1] as usize]),
    });
    Ok(converted.collect::<Vec<_>>().concat())
}

/// The card check: the number of the first record that would be refused, if there is one. Blank slots are passed over, and counted.
pub fn check(card: &[u8]) -> Result<(), u64> {
    let bad = card.chunks(RECORD).position(|piece| !is_blank(piece) && judge(piece).is_err());
    bad.map_or(Ok(()), |before| Err(before as u64 + 1))
}

/// A listing as it grows.
#[derive(Default)]
pub struct Listing {
    text: String,
    number: usize,
    accepted: u64,
    refused: u64,
    changed: u64,
}

impl Listing {
    /// Adds the line of a piece with this byte 0 and this judgement.
    pub fn add(&mut self, first: u8, judged: Result<u8, u8>) {
        let (refusal, changed) = match judged {
            Ok(changed) => (0, changed),
            Err(refusal) => (refusal, 0),
        };
        match judged {
            Ok(_) => self.accepted += 1,
            Err(_) => self.refused += 1,
        }
        self.changed += changed as u64;
        self.line(&format!("{first} {refusal} {changed}"));
    }

    /// Adds the line of a blank slot.
    pub fn add_blank(&mut self) {
        self.line("blank");
    }

    /// Adds a line, with its number before these words.
    fn line(&mut self, words: &str) {
        self.number += 1;
        [&self.number.to_string(), " ", words, "\n"].iter().for_each(|part| self.text += part);
    }

    /// The whole text, with the line `more` where the card goes on.
    pub fn end(self, more: bool) -> String {
        let more = if more { "more\n" } else { "" };
        format!("{}{more}total {} {} {}\n", self.text, self.accepted, self.refused, self.changed)
    }
}

/// The listing of a card.
pub fn list(card: &[u8]) -> String {
    let mut listing = Listing::default();
    for piece in card.chunks(RECORD).take(LISTED) {
        if is_blank(piece) {
            listing.add_blank();
        } else {
            listing.add(piece[0], judge(piece));
        }
    }
    listing.end(card.len() > LISTED * RECORD)
}

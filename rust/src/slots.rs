//! The slots of a card, one after the other.

use crate::{restore_record, Refusal, RECORD_SIZE};
use std::iter::{Enumerate, FusedIterator};
use std::slice::Chunks;

/// A piece of a card: a record, a blank slot, or a last piece that is shorter than these.
#[derive(Clone, Copy, Debug, PartialEq, Eq)]
pub struct Slot<'a> {
    /// Its number, counted from 1.
    pub number: u64,
    /// Its bytes: `RECORD_SIZE` of them, in a short last piece fewer.
    pub bytes: &'a [u8],
}

impl Slot<'_> {
    /// Was the slot never written? Then all its bytes are 255. A short last piece is no blank slot.
    pub fn is_blank(&self) -> bool {
        self.bytes.len() == RECORD_SIZE && self.bytes.iter().all(|&byte| byte == 255)
    }

    /// The record as `restore_record` leaves it, in a copy, and the number of unmarked places that changed.
    pub fn restored(&self) -> Result<([u8; RECORD_SIZE], u8), Refusal> {
        let mut record: [u8; RECORD_SIZE] = self.bytes.try_into().map_err(|_| Refusal::Length)?;
        let changed = restore_record(&mut record)?;
        Ok((record, changed))
    }
}

/// The slots of a card in their order; see `slots`.
#[derive(Clone, Debug)]
pub struct Slots<'a>(Enumerate<Chunks<'a, u8>>);

fn slot((before, bytes): (usize, &[u8])) -> Slot<'_> {
    Slot { number: before as u64 + 1, bytes }
}

impl<'a> Iterator for Slots<'a> {
    type Item = Slot<'a>;

    fn next(&mut self) -> Option<Slot<'a>> {
        self.0.next().map(slot)
    }

    fn size_hint(&self) -> (usize, Option<usize>) {
        self.0.size_hint()
    }
}

impl DoubleEndedIterator for Slots<'_> {
    fn next_back(&mut self) -> Option<Self::Item> {
        self.0.next_back().map(slot)
    }
}

impl ExactSizeIterator for Slots<'_> {}

impl FusedIterator for Slots<'_> {}

/// The slots of a card, from the first on; a last piece that is shorter comes too. The card is only read.
///
/// ```
/// let mut card = [255; 2 * xrs::RECORD_SIZE + 50]; // two slots and a short piece
/// card[..2].copy_from_slice(&[3, 0]);
/// card[7..xrs::RECORD_SIZE].fill(0); // a record of width 3
/// card[7] = 5; // a wrong symbol
///
/// let [record, blank, piece]: [xrs::Slot; 3] = xrs::slots(&card).collect::<Vec<_>>().try_into().unwrap();
/// assert_eq!((record.number, record.is_blank()), (1, false));
/// assert_eq!(record.restored().map(|(bytes, changed)| (bytes[7], changed)), Ok((0, 1)));
/// assert_eq!((blank.number, blank.is_blank()), (2, true));
/// assert_eq!((piece.number, piece.is_blank()), (3, false));
/// assert_eq!(piece.restored(), Err(xrs::Refusal::Length));
/// ```
pub fn slots(card: &[u8]) -> Slots<'_> {
    Slots(card.chunks(RECORD_SIZE).enumerate())
}

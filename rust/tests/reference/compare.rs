//! Request (m): the sheets of the controller and of the meter cupboard side by side.

use super::card::{restore, HEADER, RECORD};
use super::{places, sheet};
use std::cmp::Ordering;

/// The quarter hours of a day.
pub const QUARTERS: usize = 96;

/// What is handed back: a sign for each quarter hour, how often each of the three was given, and whether the cupboard's sheet was chosen.
#[derive(Debug, PartialEq, Eq)]
pub struct Comparison {
    pub signs: Vec<u8>,
    pub totals: [u8; 3],
    pub cupboard_chosen: bool,
}

/// A piece of a card restored in a copy and read as a day sheet: its changed places and its symbols, or the refusal number.
pub fn read(piece: &[u8]) -> Result<(u8, Vec<u8>), u8> {
    let (changed, restored) = restore(piece)?;
    let width = restored[0];
    let symbols = sheet::read(width, &restored[HEADER..HEADER + places(width)], sheet::SIZE)?;
    Ok((changed, symbols))
}

/// The piece with a number that counts from 1.
fn piece(card: &[u8], number: u64) -> Option<&[u8]> {
    let before = usize::try_from(number.checked_sub(1)?).ok()?;
    card.chunks(RECORD).nth(before)
}

/// The comparison of two records, each a card and a number, for lent signs of this number.
pub fn compare(controller: (&[u8], u64), cupboard: (&[u8], u64), signs_length: usize) -> Result<Comparison, u8> {
    let first = piece(controller.0, controller.1).ok_or(17)?;
    let second = piece(cupboard.0, cupboard.1).ok_or(17)?;
    if signs_length != QUARTERS {
        return Err(2);
    }
    let (changed, ours) = read(first)?;
    let (changed_there, theirs) = read(second)?;
    if ours[QUARTERS..] != theirs[QUARTERS..] {
        return Err(20);
    }
    let sign = |(a, b): (&u8, &u8)| match a.cmp(b) {
        Ordering::Equal => 0,
        Ordering::Greater => 1,
        Ordering::Less => 2,
    };
    let signs: Vec<u8> = ours.iter().zip(&theirs).take(QUARTERS).map(sign).collect();
    let totals = [0, 1, 2].map(|kind| signs.iter().filter(|&&sign| sign == kind).count() as u8);
    Ok(Comparison { signs, totals, cupboard_chosen: changed_there < changed })
}

/// The piece that is chosen, as it stands on its card.
pub fn part<'a>(controller: (&'a [u8], u64), cupboard: (&'a [u8], u64)) -> Result<&'a [u8], u8> {
    let found = compare(controller, cupboard, QUARTERS)?;
    let (card, number) = if found.cupboard_chosen { cupboard } else { controller };
    piece(card, number).ok_or(17)
}

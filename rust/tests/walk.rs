//! A walk over a card and looks meanwhile, request (k): cards of many lengths step by step, every refusal, and the reference.

use crate::{reference, tools};
use reference::card::{record, HEADER, RECORD};
use reference::walk::{self, alone, records, ROW, STEP};
use reference::WIDTHS;
use tools::wear::{codeword, worn_card};
use tools::{look, other_numbers, restore_record, walk_step, wanted, Chance, Tally};
use xrs::Refusal::{self, Length, RecordNumber, Width};
use xrs::Walk;

/// Cards of around one, two and three steps, some with a short last piece.
fn cards(chance: &mut Chance) -> Vec<Vec<u8>> {
    let slots = [0, 1, 2, 15, 16, 17, 31, 32, 33, 47, 48, 50];
    let further = [0, 1, RECORD - 1];
    slots.into_iter().flat_map(|slots| further.map(|further| (slots, further))).map(|(s, f)| worn_card(chance, s, f)).collect()
}

/// A step that must be as by the reference: the walk or the refusal, and the card afterwards.
fn stepped(walk: Walk, card: &[u8]) -> (Result<Walk, Refusal>, Vec<u8>) {
    let found = walk_step(walk, card);
    let wanted = walk::step(walk.length, walk.next, card).map(|(next, after)| (Walk { next, ..walk }, after));
    assert!(found == tools::wanted(wanted, card), "{walk:?} over {} bytes: {:?}", card.len(), found.0);
    found
}

/// A look at each record: the rows and the refusals.
fn looks(card: &[u8]) -> Vec<(Result<(), Refusal>, Vec<u8>)> {
    (1..=records(card)).map(|number| look(card, number, &[77; ROW])).collect()
}

/// Each card is done after N / 16 steps, rounded up, and is then as if each record had been restored alone. Before, between and after the
/// steps a look at any record gives what it gave at first. A further step changes nothing.
#[test]
fn whole_walks() {
    let mut chance = Chance::new();
    for mut card in cards(&mut chance) {
        let end: Vec<u8> = card.chunks(RECORD).flat_map(alone).collect();
        let seen = looks(&card);
        let mut walk = Walk::begin(&card);
        assert_eq!(walk, Walk { length: card.len() as u64, next: 1 });
        let count = records(&card);
        for first in (1..=count).step_by(STEP as usize) {
            assert!(!walk.is_done() && walk.next == first);
            let (answer, after) = stepped(walk, &card);
            (walk, card) = (answer.expect("no step is refused"), after);
            assert!(looks(&card) == seen, "the looks behind the step from record {first} on, of {count}");
        }
        assert!(walk.is_done() && walk.next == count + 1, "{walk:?}");
        assert!(card == end, "{count} records");
        for _ in 0..2 {
            assert_eq!(stepped(walk, &card), (Ok(walk), card.clone()), "a step after the end");
        }
    }
}

/// A look gives the symbols that restoring the record gives, with zeros behind them, or its refusal.
#[test]
fn looks_at_worn_records() {
    let mut chance = Chance::new();
    let mut tally = Tally::default();
    for round in 0..120 {
        let card = worn_card(&mut chance, 10, [0, 0, 70][round % 3]);
        for (number, piece) in (1..).zip(card.chunks(RECORD)) {
            let old = chance.symbols(ROW, 256);
            let found = look(&card, number, &old);
            assert_eq!(found, wanted(walk::look(&card, number, ROW).map(|row| ((), row)), &old), "record {number}");
            let (answer, restored) = restore_record(piece);
            assert_eq!(found.0, answer.map(|_| ()), "record {number}");
            if answer.is_ok() {
                assert_eq!(found.1, restored[HEADER..]);
            }
            tally.add(&found.0);
        }
    }
    tally.given(&[0, 1, 2, 3, 4, 6, 7, 8, 14], 0);
}

/// A word of each width, and what stands behind its last place.
#[test]
fn rows() {
    let mut chance = Chance::new();
    for width in WIDTHS {
        let word = codeword(&mut chance, width);
        let mut row = word.clone();
        row.resize(ROW, 0);
        for old in [0, 255] {
            assert_eq!(look(&record(width, &word, &[1]), 1, &[old; ROW]), (Ok(()), row.clone()), "width {width}");
        }
    }
}

/// The number is asked first, then the length of the row, then the record.
#[test]
fn refused_looks() {
    let mut chance = Chance::new();
    for (slots, further) in [(0, 0), (0, 1), (1, 0), (3, 0), (3, 138), (20, 5)] {
        let card = worn_card(&mut chance, slots, further);
        let count = records(&card);
        for length in [0, 1, 12, 20, 36, ROW - 1, ROW, ROW + 1, RECORD, ROW + 256, ROW + 65536] {
            for number in other_numbers(count) {
                assert_eq!(look(&card, number, &vec![7; length]).0, Err(RecordNumber), "record {number} of {count}");
            }
            for number in (1..=count).filter(|_| length != ROW) {
                assert_eq!(look(&card, number, &vec![7; length]).0, Err(Length), "record {number} into {length} bytes");
            }
        }
        if further > 0 {
            assert_eq!(look(&card, count, &[7; ROW]).0, Err(Length), "a short last piece");
        }
    }
    let card = [record(3, &[0; 12], &[]), vec![255; 2 * RECORD - 1]].concat();
    let answers = [1, 2, 3, 4].map(|number| look(&card, number, &[7; ROW]).0);
    assert_eq!(answers, [Ok(()), Err(Width), Err(Length), Err(RecordNumber)]);
}

/// The length is asked before the next record, after the end of the walk too, and a refused step leaves walk and card.
#[test]
fn refused_steps() {
    let mut chance = Chance::new();
    for (slots, further) in [(0, 0), (0, 1), (1, 0), (16, 0), (17, 0), (20, 100)] {
        let card = worn_card(&mut chance, slots, further);
        let (length, count) = (card.len() as u64, records(&card));
        let nexts: Vec<u64> = (1..=count + 1).chain([0, count + 2, u64::MAX]).collect();
        for other in [length.wrapping_sub(1), length + 1, length + RECORD as u64, length + 256, length + (1 << 32), u64::MAX] {
            for &next in &nexts {
                assert_eq!(stepped(Walk { length: other, next }, &card).0, Err(Length), "{other}, not {length} bytes");
            }
        }
        for next in other_numbers(count).into_iter().filter(|&next| next != count + 1) {
            assert_eq!(stepped(Walk { length, next }, &card).0, Err(RecordNumber), "record {next} of {count}");
        }
    }
}

/// A next record that no step gave is treated like any other: that record and up to 15 more.
#[test]
fn walks_that_begin_anywhere() {
    let mut chance = Chance::new();
    for (slots, further) in [(0, 0), (5, 0), (16, 0), (33, 20), (40, 0)] {
        let card = worn_card(&mut chance, slots, further);
        let count = records(&card);
        for next in 1..=count + 1 {
            let walk = Walk { length: card.len() as u64, next };
            let further = Walk { next: (next + STEP).min(count + 1), ..walk };
            assert_eq!(stepped(walk, &card).0, Ok(further));
        }
    }
}

//! The restorer of a record and the card check against the reference.

use crate::{reference, tools};
use reference::card::{check, record, restore, HEADER, RECORD};
use reference::search::most_marks;
use reference::WIDTHS;
use tools::wear::{codeword, worn};
use tools::{check_card, restore_record, wanted, Chance, Tally};
use xrs::Refusal;

/// Fails unless the answer and the bytes afterwards are those of the reference.
fn compare(old: &[u8]) -> Result<u8, Refusal> {
    let wanted = wanted(restore(old), old);
    let found = restore_record(old);
    assert!(found == wanted, "{old:?}: {found:?}, not {wanted:?}");
    found.0
}

#[test]
fn worn_records() {
    let mut chance = Chance::new();
    let mut tally = Tally::default();
    for _ in 0..3000 {
        let width = WIDTHS[chance.below(WIDTHS.len())];
        tally.add(&compare(&worn(&mut chance, width)));
    }
    tally.given(&[0, 1, 3, 4, 5, 6, 7, 8, 14], 0);
}

#[test]
fn every_byte_of_the_header() {
    let mut chance = Chance::new();
    for width in WIDTHS {
        let word = codeword(&mut chance, width);
        let clean = record(width, &word, &[]);
        let marks = &[1, 5, 8, 11, 0][..most_marks(width)];
        let marked = record(width, &word, &marks[1..]);
        let all_marked = record(width, &word, marks);
        for at in 0..HEADER {
            for byte in (0..=255).filter(|&byte| width < 7 || !(16..=125).contains(&byte)) {
                for mut bytes in [clean.clone(), marked.clone(), all_marked.clone()] {
                    bytes[at] = byte;
                    let _ = compare(&bytes);
                }
            }
        }
    }
}

#[test]
fn every_byte_of_the_tail() {
    let mut chance = Chance::new();
    for width in WIDTHS {
        let clean = record(width, &codeword(&mut chance, width), &[]);
        for at in HEADER..RECORD {
            let mut bytes = clean.clone();
            bytes[at] ^= 1;
            let _ = compare(&bytes);
        }
    }
}

#[test]
fn the_length_comes_first() {
    let clean = record(3, &codeword(&mut Chance::new(), 3), &[]);
    let mut bytes: Vec<u8> = clean.iter().cycle().take(300).copied().collect();
    bytes[0] = 6;
    for length in (0..300).filter(|&length| length != RECORD) {
        assert_eq!(compare(&bytes[..length]), Err(Refusal::Length));
    }
}

#[test]
fn restored_records_stay() {
    let mut chance = Chance::new();
    let mut accepted = 0;
    for _ in 0..500 {
        let width = WIDTHS[chance.below(WIDTHS.len())];
        let (answer, restored) = restore_record(&worn(&mut chance, width));
        if answer.is_ok() {
            assert_eq!(restore_record(&restored), (Ok(0), restored));
            accepted += 1;
        }
    }
    assert!(accepted > 100, "{accepted} of 500 records were restored");
}

/// Only a card has blank slots: as a record a blank slot has the width 255.
#[test]
fn a_blank_slot_as_a_record() {
    assert_eq!(compare(&[255; RECORD]), Err(Refusal::Width));
    assert_eq!(compare(&[255; RECORD - 1]), Err(Refusal::Length));
}

/// The slots of a card, in a few words: a clean record, one that would be refused, and a blank slot.
fn card_of(slots: &str) -> Vec<u8> {
    let clean = record(3, &[0; 12], &[]);
    let mut bad = clean.clone();
    bad[1] = 9;
    slots
        .chars()
        .flat_map(|slot| match slot {
            'c' => clean.clone(),
            'x' => bad.clone(),
            _ => vec![255; RECORD],
        })
        .collect()
}

#[test]
fn the_first_bad_record() {
    for (slots, number) in [("x", 1), ("xx", 1), ("cx", 2), ("cxcx", 2), ("cxx", 2), ("-x", 2), ("--cx-x", 4), ("xc-", 1), ("c--cc-cx", 8)] {
        assert_eq!(check_card(&card_of(slots)), Err(number), "{slots}");
    }
    for slots in ["", "c", "-", "c-", "-c", "--c-cc-"] {
        assert_eq!(check_card(&card_of(slots)), Ok(()), "{slots}");
    }
    for (slots, number) in [("c", 1), ("cc", 2), ("-c", 2), ("c--", 3), ("--", 2), ("-xc", 2)] {
        let card = card_of(slots);
        assert_eq!(check_card(&card[..card.len() - 1]), Err(number), "{slots} but for its last byte");
    }
}

#[test]
fn two_bad_records() {
    let clean = card_of(&"c".repeat(12));
    for first in 0..12 {
        for second in first + 1..12 {
            let mut card = clean.clone();
            card[first * RECORD] = 9;
            card[second * RECORD] = 0;
            assert_eq!(check_card(&card), Err(first as u64 + 1), "{first} and {second}");
        }
    }
}

#[test]
fn cards() {
    let mut chance = Chance::new();
    let widths = WIDTHS.into_iter().cycle().take(40);
    let clean: Vec<u8> = widths.flat_map(|width| record(width, &codeword(&mut chance, width), &[])).collect();
    assert_eq!(check_card(&[]), Ok(()));
    for records in 0..=40 {
        assert_eq!(check_card(&clean[..records * RECORD]), Ok(()));
    }
    for length in 0..3 * RECORD {
        let card = &clean[..length];
        assert_eq!(check_card(card), check(card), "{length} bytes");
    }
    for bad in 0..40 {
        let mut card = clean.clone();
        card[bad * RECORD + 1] = 6;
        assert_eq!(check_card(&card), Err(bad as u64 + 1), "the one record that would be refused");
    }
    for slots in 0..4 {
        for length in [0, 1, RECORD - 1, RECORD] {
            let card = [vec![255; slots * RECORD], clean[..length].to_vec()].concat();
            let wanted = if length % RECORD == 0 { Ok(()) } else { Err(slots as u64 + 1) };
            assert_eq!(check_card(&card), wanted, "{slots} blank slots and {length} bytes of a record");
        }
        assert_eq!(check_card(&vec![255; slots * RECORD + RECORD - 1]), Err(slots as u64 + 1), "a shorter last piece is never blank");
    }
    for at in 0..RECORD {
        let mut card = vec![255; 3 * RECORD];
        card[RECORD + at] = 254;
        assert_eq!(check_card(&card), Err(2), "byte {at} of slot 2 is not 255");
    }
    for _ in 0..200 {
        let slots = chance.below(6);
        let card: Vec<u8> = (0..slots).flat_map(|_| if chance.below(3) == 0 { vec![255; RECORD] } else { worn(&mut chance, 3) }).collect();
        let card = &card[..card.len() - chance.below(2).min(card.len())];
        assert_eq!(check_card(card), check(card));
    }
}

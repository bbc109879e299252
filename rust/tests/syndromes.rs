//! The sums over the unmarked places, request (d), against the reference.

use crate::{reference, tools};
use reference::{items, masked, order, places, WIDTHS};
use tools::wear::{codeword, hostile};
use tools::{is_codeword, refusal, syndromes, Chance, Tally};

/// The answer, which must be that of the reference.
fn compare(width: u8, word: &[u8], marks: &[u8]) -> Result<[u8; 5], xrs::Refusal> {
    let answer = syndromes(width, word, marks);
    assert_eq!(answer, refusal(masked::sums(width, word, marks)), "width {width}, marks {marks:?}, {word:?}");
    answer
}

/// Each digit at each place: the sums are linear, so that these tell what every word has.
#[test]
fn one_symbol_at_every_place() {
    for width in WIDTHS {
        for place in 0..places(width) {
            for symbol in (0..width).map(|digit| 1 << digit).chain([order(width) as u8 - 1]) {
                let mut word = vec![0; places(width)];
                word[place] = symbol;
                assert_ne!(compare(width, &word, &[]), Ok([0; 5]), "place {place} at width {width}");
                assert_eq!(compare(width, &word, &[place as u8]), Ok([0; 5]), "place {place} at width {width}");
            }
        }
    }
}

#[test]
fn a_byte_that_is_no_symbol_at_every_place() {
    let mut chance = Chance::new();
    for width in WIDTHS {
        let count = places(width);
        for place in 0..count {
            for byte in [order(width) as u8, 128, 255] {
                let mut word = chance.symbols(count, order(width));
                word[place] = byte;
                assert_eq!(compare(width, &word, &[]), Err(xrs::Refusal::Symbol), "{byte} at place {place} of width {width}");
                assert!(compare(width, &word, &[place as u8]).is_ok(), "{byte} at place {place} of width {width}");
                let other = (place + 1 + chance.below(count - 1)) % count;
                word[other] = byte;
                assert_eq!(compare(width, &word, &[place as u8]), Err(xrs::Refusal::Symbol), "{byte} at places {place} and {other} of width {width}");
                assert!(compare(width, &word, &[place as u8, other as u8]).is_ok(), "{byte} at places {place} and {other} of width {width}");
            }
        }
    }
}

#[test]
fn without_marks_they_are_what_the_codeword_test_asks_for() {
    let mut chance = Chance::new();
    for width in WIDTHS {
        for round in 0..100 {
            let mut word = codeword(&mut chance, width);
            for _ in 0..round % 4 {
                word[chance.below(places(width))] ^= chance.below(order(width)) as u8;
            }
            let sums = compare(width, &word, &[]).expect("symbols of the width");
            assert_eq!(sums, reference::syndromes(width, &word));
            assert_eq!(is_codeword(width, &word), Ok(sums == [0; 5]));
        }
    }
}

#[test]
fn no_byte_at_a_mark_changes_them() {
    let mut chance = Chance::new();
    for width in WIDTHS {
        let word = chance.symbols(places(width), order(width));
        for count in 1..=3 {
            let marks = chance.places(count, places(width));
            let sums = compare(width, &word, &marks);
            assert!(sums.is_ok());
            for byte in 0..=255 {
                let mut other = word.clone();
                other[marks[byte as usize % count] as usize] = byte;
                assert_eq!(syndromes(width, &other, &marks), sums, "{byte} at width {width}, marks {marks:?}");
            }
        }
    }
}

#[test]
fn the_order_of_the_marks_changes_nothing() {
    let mut chance = Chance::new();
    for width in WIDTHS {
        let word = chance.symbols(places(width), order(width));
        let mut marks = chance.places(3, places(width));
        let sums = syndromes(width, &word, &marks);
        for _ in 0..3 {
            marks.rotate_left(1);
            assert_eq!(syndromes(width, &word, &marks), sums);
            marks.swap(0, 1);
            assert_eq!(syndromes(width, &word, &marks), sums);
        }
    }
}

#[test]
fn every_check_symbol_is_in_its_own_sum() {
    for width in WIDTHS {
        for k in 0..5 {
            let mut word = vec![0; 5 + items(width)];
            word[k] = 1;
            let sums = std::array::from_fn(|j| (j == k) as u8);
            assert_eq!(compare(width, &word, &[]), Ok(sums));
        }
    }
}

#[test]
fn hostile_calls() {
    let mut chance = Chance::new();
    let mut tally = Tally::default();
    for _ in 0..3000 {
        let (width, word, marks) = hostile(&mut chance);
        tally.add(&compare(width, &word, &marks));
    }
    tally.given(&[0, 1, 2, 3, 4, 5, 6], 50);
}

//! The two methods of restoring a word, request (j): wrong places found from the syndromes, and wrong places tried. On every input they
//! give the same answer and leave the same word, that of the reference.

use crate::{reference, tools};
use reference::search::{self, radius};
use reference::{items, order, places, ODD_WIDTHS, WIDTHS};
use tools::wear::{codeword, hostile, spoiled, with_any_bytes, word_of_syndromes};
use tools::{restore_word, restore_word_by_trials, restore_word_by_trials_within, restore_word_within, wanted, Chance, Restored, Tally};
use xrs::Refusal::Correctable;

/// The answer of both methods and the word afterwards.
fn both(width: u8, word: &[u8], marks: &[u8]) -> Restored {
    let (found, tried) = (restore_word(width, word, marks), restore_word_by_trials(width, word, marks));
    assert!(found == tried, "width {width}, marks {marks:?}, {word:?}: found {found:?}, tried {tried:?}");
    assert_eq!(found, wanted(search::restore(width, word, marks), word), "width {width}, marks {marks:?}, {word:?}");
    found
}

/// Spoils a codeword at these places, with any bytes at the marks, and fails unless it comes back.
fn comes_back(chance: &mut Chance, width: u8, wrong: &[u8], marks: &[u8]) {
    let clean = codeword(chance, width);
    let word = spoiled(chance, width, &clean, wrong);
    let word = with_any_bytes(chance, &word, marks);
    assert_eq!(both(width, &word, marks), (Ok(wrong.len() as u8), clean), "places {wrong:?}, marks {marks:?} at width {width}");
}

#[test]
fn every_wrong_place() {
    let mut chance = Chance::new();
    for (width, rounds) in [(3, 40), (4, 40), (5, 10), (7, 2)] {
        for place in 0..places(width) as u8 {
            (0..rounds).for_each(|_| comes_back(&mut chance, width, &[place], &[]));
        }
    }
}

/// All pairs at width 3, and at widths 5 and 7 all that include a check place.
#[test]
fn pairs_of_wrong_places() {
    let mut chance = Chance::new();
    for (width, firsts, rounds) in [(3, 12, 40), (5, 5, 10), (7, 5, 1)] {
        for first in 0..firsts {
            for second in first + 1..places(width) as u8 {
                (0..rounds).for_each(|_| comes_back(&mut chance, width, &[first, second], &[]));
            }
        }
    }
}

/// At width 4 two wrong places are too many, and so they are beside one mark at the others: none comes back, but another codeword may.
#[test]
fn one_wrong_place_too_many() {
    let mut chance = Chance::new();
    for (width, marked, rounds) in [(4, 0, 20), (4, 1, 4), (3, 1, 4), (5, 1, 1)] {
        for first in 0..places(width) as u8 {
            for second in first + 1..places(width) as u8 {
                for _ in 0..rounds {
                    let clean = codeword(&mut chance, width);
                    let word = spoiled(&mut chance, width, &clean, &[first, second]);
                    let marks = &[(first + 1 + second) % places(width) as u8][..marked];
                    let (answer, after) = both(width, &word, marks);
                    let beside = [first, second].iter().filter(|place| !marks.contains(place)).count();
                    assert!(beside < 2 || answer == Err(Correctable) || after != clean, "places {first} and {second} at width {width}");
                }
            }
        }
    }
}

/// Two marks, both check places, or one, or none; and one of them alone.
fn some_marks(chance: &mut Chance, width: u8) -> Vec<Vec<u8>> {
    let checks = (0..5).flat_map(|first| (0..first).map(move |second| vec![first, second]));
    let mut data = || 5 + chance.below(items(width)) as u8;
    let mixed: Vec<Vec<u8>> = (0..5).map(|check| vec![check, data()]).collect();
    let alone: Vec<Vec<u8>> = (0..5).chain([data()]).map(|mark| vec![mark]).collect();
    let (first, second) = (data(), data());
    let plain = if first == second { vec![first] } else { vec![first, second] };
    checks.chain(mixed).chain(alone).chain([plain]).collect()
}

/// Where one wrong place is undone beside marks, each is.
#[test]
fn one_wrong_place_beside_marks() {
    let mut chance = Chance::new();
    for (width, rounds) in [(3, 40), (4, 40), (5, 6), (7, 1)] {
        for _ in 0..rounds {
            for marks in some_marks(&mut chance, width).into_iter().filter(|marks| radius(width, marks.len()) == 1) {
                for place in (0..places(width) as u8).filter(|place| !marks.contains(place)) {
                    comes_back(&mut chance, width, &[place], &marks);
                }
            }
        }
    }
}

/// All syndromes of width 3, without marks and with each mark alone.
#[test]
fn every_syndrome_of_width_3() {
    for marks in [vec![]].into_iter().chain((0..12).map(|mark| vec![mark])) {
        for number in 0..8usize.pow(5) {
            let _ = both(3, &word_of_syndromes(3, number), &marks);
        }
    }
}

/// Syndromes in which zeros are frequent, so that each choice by zeros is met, beside up to two marks.
#[test]
fn syndromes_with_zeros() {
    let mut chance = Chance::new();
    for (width, rounds) in [(4, 20_000), (5, 6_000), (7, 400)] {
        let mut accepted = 0;
        for round in 0..rounds {
            let q = order(width);
            let number = (0..5).fold(0, |number, _| number * q + chance.below(2) * [1, chance.below(q)][chance.below(2)]);
            let marks = chance.places(round % 3, places(width));
            accepted += both(width, &word_of_syndromes(width, number), &marks).0.is_ok() as usize;
        }
        assert!(accepted > rounds / 20, "{accepted} of {rounds} were accepted at width {width}");
    }
}

/// Words with three wrong places and more: where two places would explain four of the syndromes, the fifth decides.
#[test]
fn words_that_are_refused() {
    let mut chance = Chance::new();
    for (width, rounds) in [(3, 4000), (4, 4000), (5, 1500), (7, 80)] {
        let mut refused = 0;
        for round in 0..rounds {
            let clean = codeword(&mut chance, width);
            let wrong = chance.places(3 + round % 3, places(width));
            let word = spoiled(&mut chance, width, &clean, &wrong);
            refused += (both(width, &word, &[]).0 == Err(Correctable)) as usize;
        }
        assert!(refused > rounds / 2, "{refused} of {rounds} were refused at width {width}");
    }
}

#[test]
fn marks_alone() {
    let mut chance = Chance::new();
    for width in WIDTHS {
        for round in 0..60 {
            let marks = chance.places(round % 5 % (search::most_marks(width) + 1), places(width));
            comes_back(&mut chance, width, &[], &marks);
        }
    }
    for width in [3, 5] {
        for _ in 0..200 {
            let word = codeword(&mut chance, width);
            let _ = both(width, &word, &chance.places(5, places(width)));
        }
    }
}

/// At every reach, and with every refusal.
#[test]
fn hostile_calls() {
    let mut chance = Chance::new();
    let mut tally = Tally::default();
    for _ in 0..2500 {
        let (width, word, marks) = hostile(&mut chance);
        let reach = [0, 1, 1, 2, 2, 255][chance.below(6)];
        let found = restore_word_within(width, &word, &marks, reach);
        let tried = restore_word_by_trials_within(width, &word, &marks, reach);
        assert!(found == tried, "width {width}, marks {marks:?}, reach {reach}, {word:?}: found {found:?}, tried {tried:?}");
        assert_eq!(restore_word(width, &word, &marks), restore_word_by_trials(width, &word, &marks), "width {width}, {word:?}");
        tally.add(&found.0);
    }
    tally.given(&[0, 1, 2, 3, 4, 5, 6, 7, 16], 20);
}

/// Two wrong places at a reach of 1, and one at 0, are refused by both.
#[test]
fn no_further_than_the_reach() {
    let mut chance = Chance::new();
    for width in ODD_WIDTHS {
        for round in 0..40 {
            let clean = codeword(&mut chance, width);
            let wrong = chance.places(1 + round % 2, places(width));
            let word = spoiled(&mut chance, width, &clean, &wrong);
            for reach in 0..wrong.len() as u8 {
                for restore in [restore_word_within, restore_word_by_trials_within] {
                    assert_eq!(restore(width, &word, &[], reach).0, Err(Correctable), "places {wrong:?}, reach {reach} at width {width}");
                }
            }
        }
    }
}

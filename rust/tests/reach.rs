//! Restoring with a reach, request (h): every reach against the reference, what holds at each, and records.

use crate::{reference, tools};
use reference::card::{self, record, MARKS, RECORD};
use reference::search::{self, most_marks, radius};
use reference::{distance, places, WIDTHS};
use tools::wear::{codeword, hostile, spoiled, with_any_bytes, word_of_syndromes, worn};
use tools::{restore_record, restore_record_within, restore_word, restore_word_within, wanted, Chance, Restored, Tally};
use xrs::Refusal::{self, Correctable, Length, Padding, Reach, Symbol, Unique};

/// The answer at a reach and the word afterwards, which must be those of the reference.
fn within(width: u8, word: &[u8], marks: &[u8], reach: u8) -> Restored {
    let found = restore_word_within(width, word, marks, reach);
    let wanted = wanted(search::restore_at(width, word, marks, Some(reach)), word);
    assert!(found == wanted, "width {width}, marks {marks:?}, reach {reach}, {word:?}: {found:?}, not {wanted:?}");
    found
}

/// The same for a record.
fn record_within(record: &[u8], reach: u8) -> Restored {
    let found = restore_record_within(record, reach);
    let wanted = wanted(card::restore_of(MARKS, record, Some(reach)), record);
    assert!(found == wanted, "reach {reach}, {record:?}: {found:?}, not {wanted:?}");
    found
}

/// Each pattern of at most `reach` wrong symbols beside the marks has syndromes of its own, so it is known how many are accepted.
#[test]
fn every_syndrome_of_width_3() {
    let marks: [&[u8]; 7] = [&[], &[0], &[8], &[1, 4], &[9, 5], &[2, 3, 11], &[0, 6, 2, 8]];
    for marks in marks {
        let others = 12 - marks.len();
        let patterns = [1, 7 * others, 49 * others * (others - 1) / 2];
        for reach in 0..=radius(3, marks.len()) {
            let words = (0..8usize.pow(5)).map(|number| word_of_syndromes(3, number));
            let accepted = words.filter(|word| within(3, word, marks, reach as u8).0.is_ok()).count();
            let wanted: usize = patterns[..=reach].iter().sum();
            assert_eq!(accepted, 8usize.pow(marks.len() as u32) * wanted, "marks {marks:?}, reach {reach}");
        }
    }
}

/// The answers at the reaches that are allowed beside these marks, the shortest first, and what holds of them where `wrong` symbols of the
/// codeword beside the marks are others in the word.
fn at_each_reach(width: u8, codeword: &[u8], word: &[u8], marks: &[u8], wrong: usize) -> Vec<Restored> {
    let answers: Vec<Restored> = (0..=radius(width, marks.len())).map(|reach| within(width, word, marks, reach as u8)).collect();
    assert_eq!(answers.last(), Some(&restore_word(width, word, marks)), "who names none gets the longest");
    for (reach, found) in answers.iter().enumerate() {
        let (answer, after) = found;
        if answer.is_ok() {
            assert!(answers[reach..].iter().all(|longer| longer == found), "a longer reach restores equally: {answers:?}");
        }
        if wrong <= reach && *answer != Err(Unique) {
            assert_eq!((answer, &after[..]), (&Ok(wrong as u8), codeword), "within the reach {reach} nothing is missed");
        }
        if marks.len() + reach + wrong < distance(width) {
            assert!(*answer == Err(Correctable) || after == codeword, "another codeword came at the reach {reach}: {found:?}");
        }
    }
    answers
}

/// Codewords with as many marks as are allowed, or fewer, and up to four wrong symbols. Where these, the marks and the reach together make
/// the distance or more, another codeword may come: at width 3 some do.
#[test]
fn words_near_codewords() {
    let mut chance = Chance::new();
    for (width, rounds) in [(3, 8000), (4, 8000), (5, 4000), (7, 600)] {
        let mut others = 0;
        for round in 0..rounds {
            let most = if width == 7 { 4 } else { most_marks(width) };
            let (marked, wrong) = (round % (1 + most), round / 6 % 5);
            let clean = codeword(&mut chance, width);
            let chosen = chance.places(marked + wrong, places(width));
            let (marks, wrong) = chosen.split_at(marked);
            let word = spoiled(&mut chance, width, &clean, wrong);
            let word = with_any_bytes(&mut chance, &word, marks);
            let answers = at_each_reach(width, &clean, &word, marks, wrong.len());
            others += answers.iter().filter(|(answer, after)| marked < 5 && answer.is_ok() && *after != clean).count();
            for reach in [answers.len() as u8, 3, 4, 128, 255] {
                assert_eq!(within(width, &word, marks, reach).0, Err(Reach), "marks {marks:?}");
            }
        }
        assert!(width > 3 || others > 100, "{others} other codewords came at width 3");
    }
}

#[test]
fn every_number_as_a_reach() {
    let mut chance = Chance::new();
    for width in WIDTHS {
        for count in 0..=most_marks(width).min(4) {
            let clean = codeword(&mut chance, width);
            let marks = chance.places(count, places(width));
            for reach in 0..=255 {
                let wanted = if reach as usize <= radius(width, count) { (Ok(0), clean.clone()) } else { (Err(Reach), clean.clone()) };
                assert_eq!(within(width, &clean, &marks, reach), wanted, "{count} marks, reach {reach} at width {width}");
            }
        }
    }
    for (marks, short) in [([0, 1, 2, 3, 4], Ok(0)), ([2, 4, 5, 6, 8], Err(Unique))] {
        assert_eq!(within(3, &[0; 12], &marks, 0).0, short);
        for reach in 1..=255 {
            assert_eq!(within(3, &[0; 12], &marks, reach).0, Err(Reach), "five marks, reach {reach}");
        }
    }
}

/// Zeros were written and three symbols are wrong: another codeword comes at the longest reach, and at a shorter one none.
#[test]
fn a_shorter_reach_refuses_where_a_longer_one_guesses() {
    let zeros_but = |width: u8, symbols: &[(usize, u8)]| {
        let mut word = vec![0; places(width)];
        symbols.iter().for_each(|&(place, symbol)| word[place] = symbol);
        word
    };
    let odd = [(2, 6), (4, 4), (5, 1), (6, 2), (8, 3)];
    let even = [(5, 1), (10, 6), (15, 7), (2, 1)];
    for (width, codeword, longest) in [(3, &odd[..], 2), (4, &even[..], 1)] {
        let word = zeros_but(width, &codeword[..3]);
        assert_eq!(within(width, &word, &[], longest), (Ok(longest), zeros_but(width, codeword)));
        for reach in 0..longest {
            assert_eq!(within(width, &word, &[], reach).0, Err(Correctable), "reach {reach} at width {width}");
        }
    }
}

/// Counts the answers of 4,000 calls, each at a reach by chance, and sees that each of these was given.
fn counted(numbers: &[usize], mut call: impl FnMut(&mut Chance, u8) -> Result<u8, Refusal>) {
    let mut chance = Chance::new();
    let mut tally = Tally::default();
    for _ in 0..4000 {
        let reach = [0, 0, 1, 1, 2, 3, 255, chance.below(256) as u8][chance.below(8)];
        tally.add(&call(&mut chance, reach));
    }
    tally.given(numbers, 0);
}

#[test]
fn hostile_calls() {
    counted(&[0, 1, 2, 3, 4, 5, 6, 7, 14, 16], |chance, reach| {
        let (width, word, marks) = hostile(chance);
        within(width, &word, &marks, reach).0
    });
}

#[test]
fn worn_records() {
    counted(&[0, 1, 3, 4, 5, 6, 7, 8, 14, 16], |chance, reach| {
        let width = WIDTHS[chance.below(WIDTHS.len())];
        let bytes = worn(chance, width);
        let found = record_within(&bytes, reach);
        if found.0.is_ok() {
            assert_eq!(restore_record(&bytes), found, "without a reach");
        }
        found.0
    });
}

/// Of a record the reach is asked behind the symbols and before a near codeword, too.
#[test]
fn the_reach_of_a_record_in_its_place() {
    let answers = |bytes: &[u8], wanted: [Result<u8, Refusal>; 4]| {
        for (reach, wanted) in [0, 1, 2, 255].into_iter().zip(wanted) {
            assert_eq!(record_within(bytes, reach).0, wanted, "reach {reach}");
        }
    };
    let mut three_wrong = record(3, &[1, 1, 1, 0, 0, 0, 0, 0, 0, 0, 0, 0], &[]);
    answers(&three_wrong, [Err(Correctable), Err(Correctable), Err(Correctable), Err(Reach)]);
    answers(&record(3, &[1, 0, 0, 0, 0, 0, 0, 0, 0, 0, 0, 0], &[11]), [Err(Correctable), Ok(1), Err(Reach), Err(Reach)]);
    answers(&record(3, &[0; 12], &[2, 4, 5, 6, 8]), [Err(Unique), Err(Reach), Err(Reach), Err(Reach)]);
    three_wrong[7 + 8] = 8;
    answers(&three_wrong, [Err(Symbol); 4]);
    three_wrong[RECORD - 1] = 1;
    answers(&three_wrong, [Err(Padding); 4]);
    answers(&three_wrong[1..], [Err(Length); 4]);
    answers(&[255; RECORD], [Err(Refusal::Width); 4]);
}

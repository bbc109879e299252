//! The restorer against a search of the reference: the cases of document 01, every syndrome at the small widths, random words, and every
//! refusal.

use crate::{reference, tools};
use reference::search::{self, most_marks, radius};
use reference::{distance, order, places, ODD_WIDTHS, WIDTHS};
use tools::wear::{codeword as random_codeword, dependent, spoiled, with_any_bytes, word_of_syndromes};
use tools::{restore_word, restore_word_inside, restore_word_within, wanted, Chance, Restored, BAD_WIDTHS};
use xrs::Refusal::{self, Correctable, ErasureCount, ErasureDistinct, ErasurePlace, Length, Reach, Symbol, Unique, Width};

/// Fails unless the answer and the bytes afterwards are those of the reference.
fn compare(width: u8, word: &[u8], marks: &[u8], found: &Restored) {
    let wanted = wanted(search::restore(width, word, marks), word);
    assert!(*found == wanted, "width {width}, marks {marks:?}, {word:?}: {found:?}, not {wanted:?}");
}

/// The restorer's answer and the word afterwards, compared with the reference.
fn restored(width: u8, word: &[u8], marks: &[u8]) -> Restored {
    let result = restore_word(width, word, marks);
    compare(width, word, marks, &result);
    result
}

#[test]
fn cases_f_to_n() {
    let zeros = [0; 12];
    let word_c = [1, 2, 4, 3, 6, 0, 1, 0, 0, 0, 0, 0];
    let word_d = [1, 0, 0, 0, 0, 1, 1, 1, 1, 1, 1, 1];
    let but = |symbols: &[(usize, u8)]| {
        let mut word = zeros;
        symbols.iter().for_each(|&(place, symbol)| word[place] = symbol);
        word
    };
    let accepted = [
        ('F', but(&[(5, 1)]), &[][..], 1, zeros),
        ('G', but(&[(0, 7), (5, 7)]), &[], 2, zeros),
        ('J', but(&[(7, 5)]), &[0, 1], 1, zeros),
        ('L', word_d, &[5], 0, word_d),
        ('M', [1, 2, 0, 3, 6, 0, 0, 0, 0, 0, 0, 0], &[2, 5, 6, 8], 0, word_c),
    ];
    for (name, word, marks, count, after) in accepted {
        assert_eq!(restored(3, &word, marks), (Ok(count), after.to_vec()), "case {name}");
    }
    let refused: [(char, [u8; 12], &[u8]); 4] = [
        ('H', but(&[(0, 1), (1, 1), (2, 1)]), &[]),
        ('I', but(&[(1, 1), (2, 1)]), &[0]),
        ('K', but(&[(7, 5)]), &[0, 1, 2]),
        ('N', but(&[(4, 1)]), &[0, 1, 2, 3]),
    ];
    for (name, word, marks) in refused {
        assert_eq!(restored(3, &word, marks), (Err(Correctable), word.to_vec()), "case {name}");
    }
}

/// Restores the words with zero data that have these syndromes, and any bytes at the marks. Answers how many are accepted.
fn with_syndromes(chance: &mut Chance, width: u8, marks: &[u8], numbers: impl Iterator<Item = usize>) -> usize {
    let mut accepted = 0;
    for number in numbers {
        let word = with_any_bytes(chance, &word_of_syndromes(width, number), marks);
        let result = restore_word_inside(number as u8, width, &word, marks);
        compare(width, &word, marks, &result);
        accepted += result.0.is_ok() as usize;
    }
    accepted
}

/// The same with all syndromes. Each pattern of errors that can be undone has syndromes of its own, by the distance, so it is known how
/// many are accepted. With five marks it is every word or none: then several codewords agree, or none does.
fn every_syndrome(chance: &mut Chance, width: u8, marks: &[u8]) {
    let (q, others) = (order(width), places(width) - marks.len());
    let accepted = with_syndromes(chance, width, marks, 0..q.pow(5));
    let patterns = [1, (q - 1) * others, (q - 1).pow(2) * others * (others - 1) / 2];
    let beside_the_marks = match marks.len() {
        5 => (restore_word(width, &vec![0; places(width)], marks).0 == Ok(0)) as usize,
        count => patterns[..=radius(width, count)].iter().sum(),
    };
    assert_eq!(accepted, q.pow(marks.len() as u32) * beside_the_marks, "marks {marks:?} at width {width}");
}

#[test]
fn every_syndrome_without_marks() {
    every_syndrome(&mut Chance::new(), 3, &[]);
}

#[test]
fn every_syndrome_of_width_4_without_marks() {
    every_syndrome(&mut Chance::new(), 4, &[]);
}

/// With one mark a word in 229 is accepted, with two one in 4,096, with three one in 256.
#[test]
fn syndromes_of_width_4_with_marks() {
    let mut chance = Chance::new();
    for place in 0..20 {
        for (count, least) in [(1, 40), (2, 1), (3, 40)] {
            let marks: Vec<u8> = (0..count).map(|i| (place + 7 * i) % 20).collect();
            let mut numbers: Vec<usize> = (1..20_000).map(|_| chance.below(1 << 20)).collect();
            numbers.push(0);
            let accepted = with_syndromes(&mut chance, 4, &marks, numbers.into_iter());
            assert!(accepted >= least, "{accepted} were accepted with the marks {marks:?}");
        }
    }
}

#[test]
fn every_syndrome_with_one_mark() {
    let mut chance = Chance::new();
    for mark in 0..12 {
        every_syndrome(&mut chance, 3, &[mark]);
    }
}

#[test]
fn every_syndrome_with_two_marks() {
    let mut chance = Chance::new();
    for first in 0..12 {
        for second in 0..first {
            every_syndrome(&mut chance, 3, &[first, second]);
        }
    }
}

#[test]
fn every_syndrome_with_three_or_four_marks() {
    let mut chance = Chance::new();
    for round in 0..40 {
        let marks = chance.places(3 + round % 2, 12);
        every_syndrome(&mut chance, 3, &marks);
    }
}

#[test]
fn every_syndrome_with_five_marks() {
    let mut chance = Chance::new();
    for _ in 0..12 {
        let marks = chance.places(5, 12);
        every_syndrome(&mut chance, 3, &marks);
        let marks = dependent(&mut chance, 3);
        every_syndrome(&mut chance, 3, &marks);
    }
}

/// Codewords with up to four marks, or three at width 4, that hold any bytes and up to three other symbols changed.
fn words_near_codewords(width: u8, rounds: usize) {
    let mut chance = Chance::new();
    let mut seen = vec![0; radius(width, 0) + 2];
    for round in 0..rounds {
        let (marked, wrong) = (round % distance(width), round / 5 % 4);
        let codeword = random_codeword(&mut chance, width);
        let chosen = chance.places(marked + wrong, places(width));
        let (marks, others) = chosen.split_at(marked);
        let word = spoiled(&mut chance, width, &codeword, others);
        let word = with_any_bytes(&mut chance, &word, marks);
        let result = restored(width, &word, marks);
        if marked + 2 * wrong < distance(width) {
            assert_eq!(result, (Ok(wrong as u8), codeword), "{word:?}, marks {marks:?}");
        }
        seen[result.0.map_or(0, |count| 1 + count as usize)] += 1;
    }
    assert!(seen.iter().all(|&count| count > rounds / 40), "all answers were tried: {seen:?}");
}

#[test]
fn words_near_codewords_of_width_4() {
    words_near_codewords(4, 16000);
}

#[test]
fn words_near_codewords_of_width_5() {
    words_near_codewords(5, 16000);
}

#[test]
fn words_near_codewords_of_width_7() {
    words_near_codewords(7, 8000);
}

/// Beside five marks a codeword comes back or there are several, and a wrong symbol more is not undone. Where the columns at the marks are
/// independent, as the zero word tells, one codeword agrees whatever stands beside the marks; where they are not, none or several.
fn five_marks(width: u8, rounds: usize) {
    let mut chance = Chance::new();
    let mut seen = [0; 3];
    for round in 0..rounds {
        let mut marks = if round % 3 == 0 { dependent(&mut chance, width) } else { chance.places(5, places(width)) };
        marks.rotate_left(round % 5);
        let independent = restore_word(width, &vec![0; places(width)], &marks).0 == Ok(0);
        let codeword = random_codeword(&mut chance, width);
        let mut word = with_any_bytes(&mut chance, &codeword, &marks);
        let answer = restored(width, &word, &marks);
        assert_eq!(answer, if independent { (Ok(0), codeword) } else { (Err(Unique), word.clone()) }, "marks {marks:?}");
        let other = (0..).find(|place| !marks.contains(place)).expect("a place beside the marks");
        word[other as usize] ^= 1 + chance.below(order(width) - 1) as u8;
        let worse = restored(width, &word, &marks);
        assert!(if independent { worse.0 == Ok(0) } else { worse.0.is_err() }, "marks {marks:?}: {worse:?}");
        for result in [answer, worse] {
            seen[[Ok(0), Err(Correctable), Err(Unique)].iter().position(|known| *known == result.0).expect("one of these answers")] += 1;
        }
    }
    assert!(seen.iter().all(|&count| count > rounds / 20), "all answers were given: {seen:?}");
}

#[test]
fn five_marks_at_width_3() {
    five_marks(3, 6000);
}

#[test]
fn five_marks_at_width_5() {
    five_marks(5, 1000);
}

#[test]
fn five_marks_at_width_7() {
    five_marks(7, 60);
}

#[test]
fn random_words() {
    let mut chance = Chance::new();
    for (width, rounds) in [(3, 4000), (4, 4000), (5, 2000), (7, 400)] {
        for round in 0..rounds {
            let marks = chance.places(round % distance(width), places(width));
            let word = chance.symbols(places(width), order(width));
            let _ = restored(width, &word, &marks);
        }
    }
}

#[test]
fn every_change_of_one_symbol_is_undone() {
    let mut chance = Chance::new();
    for width in WIDTHS {
        let codeword = random_codeword(&mut chance, width);
        assert_eq!(restored(width, &codeword, &[]), (Ok(0), codeword.clone()));
        for place in 0..places(width) {
            for change in 1..order(width) {
                let mut word = codeword.clone();
                word[place] ^= change as u8;
                assert_eq!(restore_word(width, &word, &[]), (Ok(1), codeword.clone()), "place {place} at width {width}");
            }
        }
    }
}

/// At width 4 two wrong symbols are not undone. At width 7 the pairs have a place among the check symbols, the first data symbols or the
/// last ones.
#[test]
fn changes_of_two_symbols_are_undone() {
    let mut chance = Chance::new();
    for width in ODD_WIDTHS {
        let n = places(width);
        for first in (0..n).filter(|&first| n < 132 || !(8..=129).contains(&first)) {
            for second in (0..n).filter(|&second| second != first) {
                let codeword = random_codeword(&mut chance, width);
                let word = spoiled(&mut chance, width, &codeword, &[first as u8, second as u8]);
                assert_eq!(restore_word(width, &word, &[]), (Ok(2), codeword), "places {first} and {second} at width {width}");
            }
        }
    }
}

#[test]
fn any_byte_may_stand_at_a_mark() {
    let mut chance = Chance::new();
    for width in WIDTHS {
        for byte in 0..=255 {
            let codeword = random_codeword(&mut chance, width);
            let marks = chance.places(1 + byte as usize % (distance(width) - 1), places(width));
            let mut word = codeword.clone();
            word[marks[0] as usize] = byte;
            assert_eq!(restored(width, &word, &marks), (Ok(0), codeword), "{byte} at width {width}");
        }
    }
}

#[test]
fn the_order_of_the_marks_changes_nothing() {
    let mut chance = Chance::new();
    for width in WIDTHS {
        for round in 0..200 {
            let codeword = random_codeword(&mut chance, width);
            let mut marks = chance.places(2 + round % (distance(width) - 2), places(width));
            let wrong = chance.places(round % 5, places(width));
            let word = spoiled(&mut chance, width, &codeword, &wrong);
            let first = restored(width, &word, &marks);
            for turn in 0..marks.len() {
                marks.rotate_left(1);
                assert_eq!(restore_word(width, &word, &marks), first);
                marks.swap(0, 1);
                assert_eq!(restore_word(width, &word, &marks), first, "turn {turn}");
            }
        }
    }
}

/// The answer to a call that must be refused; `restore_word` sees that nothing is written.
fn refused(width: u8, word: &[u8], marks: &[u8]) -> Refusal {
    restored(width, word, marks).0.expect_err("a refusal")
}

#[test]
fn bad_widths_and_lengths() {
    for width in BAD_WIDTHS {
        for length in [0, 11, 12, 20, 36, 132, 260] {
            assert_eq!(refused(width, &vec![0; length], &[]), Width);
        }
    }
    for width in WIDTHS {
        let n = places(width);
        for length in [0, n - 1, n + 1, 2 * n, n + 256, n + 65536] {
            assert_eq!(refused(width, &vec![0; length], &[]), Length, "{length} at width {width}");
        }
        for other in WIDTHS.into_iter().filter(|&other| other != width) {
            assert_eq!(refused(width, &vec![0; places(other)], &[1]), Length);
        }
    }
}

#[test]
fn bad_marks() {
    for width in WIDTHS {
        let n = places(width);
        let zeros = vec![0; n];
        let most = most_marks(width);
        for count in [most + 1, most + 2, 12, 255, 256, 257, 261, 65536, 65541] {
            let marks: Vec<u8> = (0..count).map(|i| (i % n) as u8).collect();
            assert_eq!(refused(width, &zeros, &marks), ErasureCount, "{count} marks at width {width}");
        }
        for mark in 0..=255 {
            for index in 0..most.min(4) {
                let mut marks = [0, 1, 2, 3].map(|i| (i + mark as usize + 1) as u8 % n as u8);
                marks[index] = mark;
                let marks = &marks[..most.min(4)];
                if (mark as usize) < n {
                    assert_eq!(restored(width, &zeros, marks), (Ok(0), zeros.clone()), "mark {mark} at width {width}");
                } else {
                    assert_eq!(refused(width, &zeros, marks), ErasurePlace, "mark {mark} at width {width}");
                    assert_eq!(refused(width, &zeros, &[mark, mark]), ErasurePlace, "mark {mark} twice at width {width}");
                }
            }
        }
        for (first, second) in [(0, 1), (0, 2), (1, 2), (0, 3), (1, 3), (2, 3)].into_iter().filter(|pair| pair.1 < most) {
            for place in [0, 3, 4, 5, n as u8 - 1] {
                let mut marks = [6, 7, 8, 9];
                (marks[first], marks[second]) = (place, place);
                let marks = &marks[..most.min(4)];
                assert_eq!(refused(width, &zeros, marks), ErasureDistinct, "marks {marks:?} at width {width}");
                assert_eq!(refused(width, &zeros, &marks[first..=second]), ErasureDistinct);
            }
        }
    }
}

#[test]
fn bad_symbols() {
    let mut chance = Chance::new();
    for width in WIDTHS {
        let top = order(width) as u8;
        let codeword = random_codeword(&mut chance, width);
        for place in 0..places(width) {
            for bad in [top, top + 1, 128, 255] {
                let mut word = codeword.clone();
                word[place] = bad;
                let beside = (place as u8 + 1) % places(width) as u8;
                assert_eq!(refused(width, &word, &[]), Symbol, "place {place} = {bad} at width {width}");
                assert_eq!(refused(width, &word, &[beside]), Symbol, "place {place} = {bad} at width {width}");
                assert_eq!(restored(width, &word, &[beside, place as u8]), (Ok(0), codeword.clone()));
            }
        }
    }
}

/// What is restored with nothing changed beside the marks, at the reach 1, the longest there.
struct Input {
    width: u8,
    word: Vec<u8>,
    marks: Vec<u8>,
    reach: u8,
}

impl Input {
    /// Makes this question be answered no. `kind` chooses among the ways to do so.
    fn spoil(&mut self, question: Refusal, kind: usize) {
        let n = self.word.len();
        match question {
            Width => self.width = BAD_WIDTHS[kind % 8],
            Length => self.word.resize([n - 1, n + 1, n + 256, 0][kind % 4], 0),
            ErasureCount => self.marks.extend(if kind % 2 == 0 { vec![1, 2, 3, 4] } else { vec![5; 256] }),
            ErasurePlace => self.marks.insert(kind % (1 + self.marks.len()), if kind % 2 == 0 { n as u8 } else { 255 }),
            ErasureDistinct => self.marks.insert(kind % (1 + self.marks.len()), self.marks[kind % self.marks.len()]),
            Symbol => self.word[8 + kind % 2] = if kind % 4 < 2 { n as u8 - 4 } else { 255 },
            Reach => self.reach = [2, 3, 128, 255][kind % 4],
            _ => [0, 1, 2].into_iter().for_each(|place| self.word[place] ^= 1),
        }
    }
}

#[test]
fn each_question_alone_and_before_the_later_ones() {
    let mut chance = Chance::new();
    // The last one first, so that the word has its length until all else is spoiled.
    let questions = [Correctable, Reach, Symbol, ErasureDistinct, ErasurePlace, ErasureCount, Length, Width];
    for width in WIDTHS {
        for kind in 0..16 {
            let codeword = random_codeword(&mut chance, width);
            let marks = [places(width) as u8 - 1, 6];
            let marks = &marks[..distance(width) - 3];
            for (i, &first) in questions.iter().enumerate() {
                for &later in &questions[..=i] {
                    let mut input = Input { width, word: codeword.clone(), marks: marks.to_vec(), reach: 1 };
                    assert_eq!(restore_word_within(width, &input.word, &input.marks, 1), (Ok(0), codeword.clone()));
                    input.spoil(later, kind / 4);
                    if later != first {
                        input.spoil(first, kind);
                    }
                    let (answer, _) = restore_word_within(input.width, &input.word, &input.marks, input.reach);
                    assert_eq!(answer, Err(first), "{later:?} too at width {width}");
                    // Who names no reach is not asked for it.
                    let asked = if first == Reach { later } else { first };
                    if asked != Reach {
                        assert_eq!(refused(input.width, &input.word, &input.marks), asked, "{later:?} too at width {width}");
                    }
                }
            }
        }
    }
}

//! Encoder, codeword test and reader of data: the words of document 01, every refusal and their order, and the reference.

use crate::{reference, tools};
use reference::{distance, items, order, places, WIDTHS};
use tools::{encode, is_codeword, read_data, refusal, Chance, Tally, BAD_WIDTHS};
use xrs::Refusal::{Length, Symbol, Syndrome, Width};

/// The words A to E of document 01, all of width 3.
const WORDS: [[u8; 12]; 5] = [
    [0, 0, 0, 0, 0, 0, 0, 0, 0, 0, 0, 0],
    [1, 1, 1, 1, 1, 1, 0, 0, 0, 0, 0, 0],
    [1, 2, 4, 3, 6, 0, 1, 0, 0, 0, 0, 0],
    [1, 0, 0, 0, 0, 1, 1, 1, 1, 1, 1, 1],
    [2, 7, 5, 6, 1, 3, 0, 1, 0, 0, 0, 0],
];

/// Lengths other than `length`: none, one off, twice, and those that a narrower number would take for it.
fn other_lengths(length: usize) -> [usize; 7] {
    [0, length - 1, length + 1, 2 * length, length + 256, length + 65536, 1 << 20]
}

/// The codeword of the data, which must have been accepted.
fn codeword(width: u8, data: &[u8]) -> Vec<u8> {
    let (answer, word) = encode(width, data, &vec![255; places(width)]);
    assert_eq!(answer, Ok(()), "encode {data:?} at width {width}");
    word
}

/// A codeword of random data.
fn random_codeword(chance: &mut Chance, width: u8) -> Vec<u8> {
    codeword(width, &chance.symbols(items(width), order(width)))
}

#[test]
fn words_a_to_e() {
    for word in WORDS {
        assert_eq!(encode(3, &word[5..], &[200; 12]), (Ok(()), word.to_vec()));
        assert_eq!(is_codeword(3, &word), Ok(true));
        assert_eq!(read_data(3, &word, &[200; 7]), (Ok(()), word[5..].to_vec()));
        assert_eq!(refusal(reference::encode(3, &word[5..], 12)), Ok(word.to_vec()));
    }
}

/// Request (i): at width 4 two codewords differ at four places.
#[test]
fn a_codeword_of_width_4_beside_zeros() {
    let mut word = [0; 20];
    (word[2], word[5], word[10], word[15]) = (1, 1, 6, 7);
    assert_eq!(encode(4, &word[5..], &[200; 20]), (Ok(()), word.to_vec()));
    assert_eq!(is_codeword(4, &word), Ok(true));
    assert_eq!(is_codeword(4, &[0; 20]), Ok(true));
}

#[test]
fn one_data_symbol_at_every_place() {
    for width in WIDTHS {
        for i in 0..items(width) {
            for symbol in [1, order(width) as u8 - 1] {
                let mut data = vec![0; items(width)];
                data[i] = symbol;
                assert_eq!(Ok(codeword(width, &data)), reference::encode(width, &data, places(width)), "c_{i} = {symbol} at width {width}");
            }
        }
    }
}

#[test]
fn encode_then_test_then_read() {
    let mut chance = Chance::new();
    for width in WIDTHS {
        for _ in 0..300 {
            let data = chance.symbols(items(width), order(width));
            let word = codeword(width, &data);
            assert_eq!(word[5..], data);
            assert_eq!(is_codeword(width, &word), Ok(true));
            let old = chance.symbols(items(width), 256);
            assert_eq!(read_data(width, &word, &old), (Ok(()), data));
        }
    }
}

#[test]
fn random_data_is_encoded_as_by_the_reference() {
    let mut chance = Chance::new();
    for width in WIDTHS {
        for _ in 0..150 {
            let data = chance.symbols(items(width), order(width));
            assert_eq!(Ok(codeword(width, &data)), reference::encode(width, &data, places(width)));
        }
    }
}

#[test]
fn sums_of_codewords_are_codewords() {
    let mut chance = Chance::new();
    for width in WIDTHS {
        for _ in 0..300 {
            let (a, b) = (random_codeword(&mut chance, width), random_codeword(&mut chance, width));
            let sum: Vec<u8> = a.iter().zip(&b).map(|(a, b)| a ^ b).collect();
            assert_eq!(is_codeword(width, &sum), Ok(true));
            assert_eq!(codeword(width, &sum[5..]), sum);
        }
    }
}

#[test]
fn every_change_of_one_symbol_is_seen() {
    let mut chance = Chance::new();
    for width in WIDTHS {
        let zeros = vec![0; places(width)];
        for word in [zeros, random_codeword(&mut chance, width), random_codeword(&mut chance, width)] {
            for place in 0..places(width) {
                for symbol in (0..order(width) as u8).filter(|&symbol| symbol != word[place]) {
                    let mut changed = word.clone();
                    changed[place] = symbol;
                    assert_eq!(is_codeword(width, &changed), Ok(false), "place {place} = {symbol} at width {width}");
                    let old = vec![symbol ^ 0xC3; items(width)];
                    assert_eq!(read_data(width, &changed, &old), (Err(Syndrome), old));
                }
            }
        }
    }
}

#[test]
fn words_near_codewords_are_judged_as_by_the_reference() {
    let mut chance = Chance::new();
    for width in WIDTHS {
        let mut seen = [0; 2];
        for round in 0..240 {
            let mut word = random_codeword(&mut chance, width);
            for _ in 0..round % 7 {
                word[chance.below(places(width))] ^= chance.below(order(width)) as u8;
            }
            let answer = is_codeword(width, &word);
            assert_eq!(answer, refusal(reference::is_codeword(width, &word)), "{word:?} at width {width}");
            let old = vec![round as u8; items(width)];
            let (verdict, data) = read_data(width, &word, &old);
            assert_eq!(verdict.map(|()| data), refusal(reference::read_data(width, &word, old.len())));
            seen[(answer == Ok(true)) as usize] += 1;
        }
        assert!(seen.iter().all(|&count| count > 20), "both answers were tried: {seen:?}");
    }
}

#[test]
fn fewer_changes_than_the_distance_are_seen() {
    let mut chance = Chance::new();
    for width in WIDTHS {
        for round in 0..400 {
            let word = random_codeword(&mut chance, width);
            let mut changed = word.clone();
            while changed == word {
                for _ in 0..1 + round % (distance(width) - 1) {
                    changed[chance.below(places(width))] = chance.below(order(width)) as u8;
                }
            }
            assert_eq!(is_codeword(width, &changed), Ok(false), "{changed:?} at width {width}");
        }
    }
}

#[test]
fn what_an_output_held_does_not_matter() {
    let mut chance = Chance::new();
    for width in WIDTHS {
        let word = random_codeword(&mut chance, width);
        let data = &word[5..];
        for old in [0, 1, order(width) as u8 - 1, order(width) as u8, 255] {
            assert_eq!(encode(width, data, &vec![old; places(width)]), (Ok(()), word.clone()));
            assert_eq!(read_data(width, &word, &vec![old; items(width)]), (Ok(()), data.to_vec()));
        }
    }
}

#[test]
fn bad_widths_are_refused_first() {
    for width in BAD_WIDTHS {
        for (n, count) in [(12, 7), (36, 31), (132, 127), (20, 15), (11, 7), (12, 8), (0, 0)] {
            for symbol in [0, 1, 255] {
                assert_eq!(encode(width, &vec![symbol; count], &vec![9; n]).0, Err(Width));
                assert_eq!(is_codeword(width, &vec![symbol; n]), Err(Width));
                assert_eq!(read_data(width, &vec![symbol; n], &vec![9; count]).0, Err(Width));
            }
        }
    }
}

#[test]
fn bad_lengths_are_refused_before_bad_symbols() {
    for width in WIDTHS {
        let (n, count) = (places(width), items(width));
        for symbol in [0, 1, 255] {
            for length in other_lengths(n) {
                assert_eq!(encode(width, &vec![symbol; count], &vec![9; length]).0, Err(Length), "word of {length} at width {width}");
                assert_eq!(is_codeword(width, &vec![symbol; length]), Err(Length), "word of {length} at width {width}");
                assert_eq!(read_data(width, &vec![symbol; length], &vec![9; count]).0, Err(Length), "word of {length} at width {width}");
            }
            for length in other_lengths(count) {
                assert_eq!(encode(width, &vec![symbol; length], &vec![9; n]).0, Err(Length), "data of {length} at width {width}");
                assert_eq!(read_data(width, &vec![symbol; n], &vec![9; length]).0, Err(Length), "data of {length} at width {width}");
            }
        }
        // The lengths of word and data must each be right: neither makes up for the other.
        for (n, count) in [(n + 1, count + 1), (n - 1, count - 1), (count, n), (0, 0)] {
            assert_eq!(encode(width, &vec![0; count], &vec![9; n]).0, Err(Length));
            assert_eq!(read_data(width, &vec![0; n], &vec![9; count]).0, Err(Length));
        }
    }
}

#[test]
fn lengths_of_another_width_are_refused() {
    for width in WIDTHS {
        for other in WIDTHS.into_iter().filter(|&other| other != width) {
            let word = vec![0; places(other)];
            assert_eq!(encode(width, &word[5..], &word).0, Err(Length));
            assert_eq!(is_codeword(width, &word), Err(Length));
            assert_eq!(read_data(width, &word, &word[5..]).0, Err(Length));
        }
    }
}

#[test]
fn symbols_from_q_on_are_refused_before_the_syndromes() {
    let mut chance = Chance::new();
    for width in WIDTHS {
        let top = order(width) as u8;
        for good in [vec![0; places(width)], random_codeword(&mut chance, width)] {
            for place in 0..places(width) {
                let with = |symbol: u8| {
                    let mut word = good.clone();
                    word[place] = symbol;
                    word
                };
                // q-1 is a symbol.
                assert_eq!(is_codeword(width, &with(top - 1)), Ok(good[place] == top - 1));
                for bad in [top, top + 1, 128, 254, 255] {
                    let word = with(bad);
                    let old = vec![77; items(width)];
                    assert_eq!(is_codeword(width, &word), Err(Symbol), "place {place} = {bad} at width {width}");
                    assert_eq!(read_data(width, &word, &old), (Err(Symbol), old));
                    if place >= 5 {
                        let old = vec![77; places(width)];
                        assert_eq!(encode(width, &word[5..], &old), (Err(Symbol), old), "c_{} = {bad} at width {width}", place - 5);
                    }
                }
                if place >= 5 {
                    assert_eq!(encode(width, &with(top - 1)[5..], &vec![77; places(width)]).0, Ok(()));
                }
            }
        }
        for bad in order(width)..256 {
            assert_eq!(is_codeword(width, &vec![bad as u8; places(width)]), Err(Symbol));
            assert_eq!(encode(width, &vec![bad as u8; items(width)], &vec![0; places(width)]).0, Err(Symbol));
        }
    }
}

#[test]
fn random_calls_are_answered_as_by_the_reference() {
    let mut chance = Chance::new();
    let mut tally = Tally::default();
    for _ in 0..20000 {
        let width = match chance.below(100) {
            0 => 7,
            1..=9 => 5,
            10..=19 => BAD_WIDTHS[chance.below(6)],
            20..=39 => 4,
            _ => 3,
        };
        let mut near = |length: usize| if chance.below(8) == 0 { (length + chance.below(3)).saturating_sub(1) } else { length };
        let (n, count) = (near(places(width)), near(items(width)));
        let top = order(width) + (chance.below(6) == 0) as usize;
        let data = chance.symbols(count, top);
        let mut word = chance.symbols(n, top);
        let (answer, encoded) = encode(width, &data, &word);
        assert_eq!(answer.map(|()| encoded.clone()), refusal(reference::encode(width, &data, n)));
        if chance.below(2) == 0 {
            word = encoded;
        }
        assert_eq!(is_codeword(width, &word), refusal(reference::is_codeword(width, &word)));
        let (answer, symbols) = read_data(width, &word, &data);
        tally.add(&answer);
        assert_eq!(answer.map(|()| symbols), refusal(reference::read_data(width, &word, count)));
    }
    tally.given(&[0, 1, 2, 6, 9], 50);
}

//! Day sheets: every date, every refusal and their order, and the reference.

use crate::{reference, tools};
use reference::sheet::{exists, DAYS, SIZE};
use reference::{items, order, places};
use tools::sheets::random_symbols;
use tools::{encode, read_sheet, refusal, write_sheet, Chance, Tally, BAD_WIDTHS};
use xrs::Refusal::{Date, Length, SheetWidth, Symbol, Syndrome, Unused, Width};

const N: usize = 132;

/// The symbols of a sheet without starts, of pump 5.
fn dated(year: u8, month: u8, day: u8) -> Vec<u8> {
    let mut symbols = vec![0; SIZE];
    symbols[96..].copy_from_slice(&[year, month, day, 5]);
    symbols
}

/// The codeword of width 7 that holds these symbols and `unused` behind them.
fn word_of(symbols: &[u8], unused: &[u8]) -> Vec<u8> {
    let (answer, word) = encode(7, &[symbols, unused].concat(), &[255; N]);
    assert_eq!(answer, Ok(()));
    word
}

#[test]
fn every_date() {
    let mut accepted = 0;
    for year in 0..128 {
        for month in (0..15).chain([31, 127]) {
            for day in (0..34).chain([127]) {
                let symbols = dated(year, month, day);
                let wanted = if exists(year, month, day) { Ok(()) } else { Err(Date) };
                let (answer, word) = write_sheet(7, &symbols, &[9; N]);
                assert_eq!(answer, wanted, "write {year} {month} {day}");
                accepted += answer.is_ok() as usize;
                if wanted == Ok(()) {
                    assert_eq!(read_sheet(7, &word, &[9; SIZE]), (Ok(()), symbols));
                }
            }
        }
    }
    assert_eq!(accepted, DAYS);
}

#[test]
fn dates_that_do_not_exist_are_not_read() {
    for year in [0, 1, 4, 23, 24, 99, 100, 101, 127] {
        for month in 0..14 {
            for day in 0..34 {
                let symbols = dated(year, month, day);
                let wanted = if exists(year, month, day) { (Ok(()), symbols.clone()) } else { (Err(Date), vec![9; SIZE]) };
                assert_eq!(read_sheet(7, &word_of(&symbols, &[0; 27]), &[9; SIZE]), wanted, "read {year} {month} {day}");
            }
        }
    }
}

#[test]
fn leap_days() {
    for (year, wanted) in [(0, Ok(())), (4, Ok(())), (23, Err(Date)), (96, Ok(())), (100, Err(Date)), (104, Ok(())), (124, Ok(()))] {
        assert_eq!(write_sheet(7, &dated(year, 2, 29), &[9; N]).0, wanted, "29 February {}", 2000 + year as u16);
        assert_eq!(write_sheet(7, &dated(year, 2, 30), &[9; N]).0, Err(Date));
    }
}

#[test]
fn what_is_written_is_read_back() {
    let mut chance = Chance::new();
    for round in 0..2000 {
        let mut symbols = random_symbols(&mut chance);
        if round % 4 == 0 {
            symbols[..96].fill(127);
        }
        let old = chance.symbols(N, 256);
        let (answer, word) = write_sheet(7, &symbols, &old);
        assert_eq!(answer, Ok(()));
        assert_eq!(word, word_of(&symbols, &[0; 27]));
        assert_eq!(read_sheet(7, &word, &chance.symbols(SIZE, 256)), (Ok(()), symbols.clone()));
        assert_eq!(write_sheet(7, &symbols, &[0; N]), (Ok(()), word));
    }
}

#[test]
fn random_sheets_are_those_of_the_reference() {
    let mut chance = Chance::new();
    for _ in 0..100 {
        let symbols = random_symbols(&mut chance);
        assert_eq!(Ok(write_sheet(7, &symbols, &[9; N]).1), reference::sheet::write(7, &symbols, N));
    }
}

#[test]
fn the_unused_symbols_are_zero() {
    let good = dated(24, 2, 29);
    for place in 0..27 {
        for symbol in [1, 127] {
            let mut unused = [0; 27];
            unused[place] = symbol;
            let old = vec![symbol; SIZE];
            assert_eq!(read_sheet(7, &word_of(&good, &unused), &old), (Err(Unused), old), "c_{} = {symbol}", 100 + place);
            // The date is asked before.
            for bad in [dated(100, 2, 29), dated(24, 0, 1), dated(24, 13, 1), dated(24, 4, 31), dated(24, 1, 0)] {
                assert_eq!(read_sheet(7, &word_of(&bad, &unused), &[9; SIZE]).0, Err(Date));
            }
        }
    }
}

#[test]
fn other_widths_are_refused_last() {
    let mut chance = Chance::new();
    for width in [3, 4, 5] {
        let (n, q) = (places(width), order(width) as u8);
        // 100 symbols below q, and a word of the width: only then is the sheet's width asked.
        for symbols in [vec![0; SIZE], vec![q - 1; SIZE], dated(1, 1, 1)] {
            assert_eq!(write_sheet(width, &symbols, &vec![9; n]).0, Err(SheetWidth));
            assert_eq!(write_sheet(width, &symbols, &[9; N]).0, Err(Length));
        }
        assert_eq!(write_sheet(width, &[q; SIZE], &vec![9; n]).0, Err(Symbol));
        let (_, word) = encode(width, &chance.symbols(items(width), order(width)), &vec![0; n]);
        assert_eq!(read_sheet(width, &word, &[9; SIZE]).0, Err(SheetWidth));
        assert_eq!(read_sheet(width, &vec![0; n], &[9; SIZE]).0, Err(SheetWidth));
        assert_eq!(read_sheet(width, &[0; N], &[9; SIZE]).0, Err(Length));
        assert_eq!(read_sheet(width, &vec![0; n], &vec![9; items(width)]).0, Err(Length));
        let mut wrong = word.clone();
        wrong[n - 1] ^= 1;
        assert_eq!(read_sheet(width, &wrong, &[9; SIZE]).0, Err(Syndrome));
        wrong[0] = q;
        assert_eq!(read_sheet(width, &wrong, &[9; SIZE]).0, Err(Symbol));
    }
}

#[test]
fn each_question_comes_before_the_later_ones() {
    // The input has every fault that comes later; one after the other is mended.
    let (bad_symbols, mut bad_word) = (vec![200; SIZE], vec![200; N]);
    for width in BAD_WIDTHS {
        assert_eq!(write_sheet(width, &bad_symbols[1..], &bad_word[1..]).0, Err(Width));
        assert_eq!(read_sheet(width, &bad_word[1..], &bad_symbols[1..]).0, Err(Width));
    }
    assert_eq!(write_sheet(7, &bad_symbols, &bad_word[1..]).0, Err(Length));
    assert_eq!(write_sheet(7, &bad_symbols[1..], &bad_word).0, Err(Length));
    assert_eq!(read_sheet(7, &bad_word[1..], &bad_symbols).0, Err(Length));
    assert_eq!(read_sheet(7, &bad_word, &bad_symbols[1..]).0, Err(Length));
    assert_eq!(write_sheet(7, &bad_symbols, &bad_word).0, Err(Symbol));
    assert_eq!(read_sheet(7, &bad_word, &bad_symbols).0, Err(Symbol));
    bad_word.fill(3);
    assert_eq!(read_sheet(7, &bad_word, &bad_symbols).0, Err(Syndrome));
    assert_eq!(write_sheet(7, &[3; SIZE], &bad_word).0, Ok(())); // 3 March 2003
    assert_eq!(write_sheet(7, &[33; SIZE], &bad_word).0, Err(Date));
    assert_eq!(read_sheet(7, &word_of(&[33; SIZE], &[33; 27]), &bad_symbols).0, Err(Date));
    assert_eq!(read_sheet(7, &word_of(&[3; SIZE], &[33; 27]), &bad_symbols).0, Err(Unused));
    assert_eq!(read_sheet(7, &word_of(&[3; SIZE], &[0; 27]), &bad_symbols), (Ok(()), vec![3; SIZE]));
}

#[test]
fn lengths() {
    let good = dated(24, 2, 29);
    let word = word_of(&good, &[0; 27]);
    let long: Vec<u8> = word.iter().cycle().take(70_000).copied().collect();
    for length in [0, 1, 99, 101, 127, 132, 200, 356, 65636] {
        assert_eq!(write_sheet(7, &long[..length], &[9; N]).0, Err(Length), "{length} symbols");
        assert_eq!(read_sheet(7, &word, &vec![9; length]).0, Err(Length), "{length} symbols");
    }
    for length in [0, 12, 20, 36, 131, 133, 264, 388, 65668] {
        assert_eq!(write_sheet(7, &good, &vec![9; length]).0, Err(Length), "a word of {length}");
        assert_eq!(read_sheet(7, &long[..length], &[9; SIZE]).0, Err(Length), "a word of {length}");
    }
}

#[test]
fn random_calls_are_answered_as_by_the_reference() {
    let mut chance = Chance::new();
    let mut tally = Tally::default();
    for _ in 0..3000 {
        let width = [7, 7, 7, 7, 7, 7, 3, 4, 5, 6][chance.below(10)];
        let n = places(width);
        let near = |length: usize, chance: &mut Chance| if chance.below(10) == 0 { length + chance.below(3) - 1 } else { length };
        let mut symbols = random_symbols(&mut chance);
        if width != 7 || chance.below(8) == 0 {
            let top = order(width) + (chance.below(6) == 0) as usize;
            symbols = chance.symbols(SIZE, top);
        }
        symbols.resize(near(SIZE, &mut chance), 1);
        let old = vec![9; near(n, &mut chance)];
        let (answer, written) = write_sheet(width, &symbols, &old);
        assert_eq!(answer.map(|()| written.clone()), refusal(reference::sheet::write(width, &symbols, old.len())));
        tally.add(&answer);
        let mut word = if answer == Ok(()) { written } else { encode(width, &chance.symbols(n - 5, order(width)), &vec![0; n]).1 };
        match chance.below(8) {
            0 => word[chance.below(n)] ^= 1,
            1 if width == 7 => word = word_of(&random_symbols(&mut chance), &chance.symbols(27, 2)),
            2 => word[chance.below(n)] = order(width) as u8,
            _ => (),
        }
        let old = vec![9; near(SIZE, &mut chance)];
        let (answer, read) = read_sheet(width, &word, &old);
        assert_eq!(answer.map(|()| read), refusal(reference::sheet::read(width, &word, old.len())));
        tally.add(&answer);
    }
    tally.given(&[0, 1, 2, 6, 9, 11, 12, 13], 20);
}

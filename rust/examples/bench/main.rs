//! Times the restorer beside its trying method and an independent implementation of that; `bench/run` calls it and makes the tables.
//!
//!     bench words         a line 'NAME WIDTH WRONG MARKS NANOSECONDS' for each kind of word
//!     bench card FILE     writes a card of 1,000,000 clean records of width 7
//!     bench worn FILE     writes such a card with two wrong symbols in each record
//!     bench sheets FILE   writes a card of 1,000,000 clean day sheets
//!     bench calls FILE    a line 'NAME SECONDS' for each call on the clean card
//!     bench window FILE   such a line for the starts in a window, on the card of sheets

#[path = "../../tests/reference/mod.rs"]
mod reference;
#[path = "../../tests/tools/mod.rs"]
mod tools;
mod trying;

use reference::search::radius;
use reference::{items, order, places, WIDTHS};
use std::io::{BufWriter, Write};
use std::time::{Duration, Instant};
use tools::sheets::random_symbols;
use tools::wear::spoiled;
use tools::Chance;

/// Words of each kind.
const WORDS: usize = 4096;
/// Rounds over the words follow each other until this time is spent. The best counts.
const SPENT: Duration = Duration::from_millis(500);
const RECORDS: usize = 1_000_000;

/// A codeword of random data. The library makes it: the reference would take long for a card.
fn codeword(chance: &mut Chance, width: u8) -> Vec<u8> {
    let data = chance.symbols(items(width), order(width));
    let mut word = vec![0; places(width)];
    xrs::encode(width, &data, &mut word).expect("data of the width");
    word
}

/// So many places to spoil. Beside five erasures there may be several codewords: such places are drawn again.
fn restorable(chance: &mut Chance, width: u8, clean: &[u8], count: usize) -> Vec<u8> {
    loop {
        let drawn = chance.places(count, places(width));
        if count < 5 || xrs::restore_word(width, &mut clean.to_vec(), &drawn).is_ok() {
            return drawn;
        }
    }
}

/// Words of one kind: `wrong` wrong symbols beside `marks` erasures, whose symbols are wrong too. The words stand one behind the other.
/// With more wrong symbols than r they are refused.
struct Words {
    width: u8,
    wrong: usize,
    refused: bool,
    worn: Vec<u8>,
    /// What must be there afterwards.
    after: Vec<u8>,
    marks: Vec<Vec<u8>>,
}

impl Words {
    fn new(width: u8, wrong: usize, marks: usize) -> Words {
        let mut chance = Chance::new();
        let refused = wrong > radius(width, marks);
        let mut words = Words { width, wrong, refused, worn: Vec::new(), after: Vec::new(), marks: Vec::new() };
        while words.marks.len() < WORDS {
            let clean = codeword(&mut chance, width);
            let places = restorable(&mut chance, width, &clean, wrong + marks);
            let worn = spoiled(&mut chance, width, &clean, &places);
            if refused && xrs::restore_word(width, &mut worn.clone(), &places[wrong..]).is_ok() {
                continue; // near another codeword
            }
            words.after.extend(if refused { &worn } else { &clean });
            words.worn.extend(worn);
            words.marks.push(places[wrong..].to_vec());
        }
        words
    }

    /// Restores fresh copies of the words, made before the clock starts. Fails where an answer is not the one that must come.
    fn round(&self, name: &str, restore: &impl Fn(&mut [u8], &[u8]) -> Option<u8>) -> Duration {
        let wanted = (!self.refused).then_some(self.wrong as u8);
        let mut copies = self.worn.clone();
        let mut right = 0;
        let start = Instant::now();
        for (word, marks) in copies.chunks_mut(places(self.width)).zip(&self.marks) {
            right += (restore(word, marks) == wanted) as usize;
        }
        let spent = start.elapsed();
        assert!(right == WORDS && copies == self.after, "{name} does not treat every word right");
        spent
    }

    /// Prints the nanoseconds per word of the best round.
    fn time(&self, name: &str, restore: impl Fn(&mut [u8], &[u8]) -> Option<u8>) {
        let mut best = self.round(name, &restore);
        let mut spent = best;
        while spent < SPENT {
            let round = self.round(name, &restore);
            spent += round;
            best = best.min(round);
        }
        let best = best.as_nanos() as f64 / WORDS as f64;
        println!("{name} {} {} {} {best:.1}", self.width, self.wrong, self.marks[0].len());
    }
}

fn time_words() {
    let decoder = trying::Decoder::new();
    for width in WIDTHS {
        for wrong in 0..=radius(width, 0) {
            Words::new(width, wrong, 0).time("ours", |word, marks| xrs::restore_word(width, word, marks).ok());
        }
    }
    for (wrong, marks) in [(0, 1), (0, 2), (0, 3), (0, 4), (0, 5), (1, 1), (1, 2), (2, 1)] {
        Words::new(7, wrong, marks).time("ours", |word, marks| xrs::restore_word(7, word, marks).ok());
    }
    for wrong in 0..=2 {
        Words::new(7, wrong, 0).time("trials", |word, marks| xrs::restore_word_by_trials(7, word, marks).ok());
    }
    let refused = Words::new(7, 3, 0);
    refused.time("ours", |word, marks| xrs::restore_word(7, word, marks).ok());
    for reach in 0..=2 {
        refused.time(&format!("reach_{reach}"), |word, marks| xrs::restore_word_within(7, word, marks, reach).ok());
    }
    for (wrong, marks) in [(0, 0), (1, 0), (2, 0), (3, 0), (0, 1), (0, 2), (0, 3), (0, 4)] {
        let words = Words::new(7, wrong, marks);
        words.time("independent", |word, marks| decoder.restore(word.try_into().expect("132 symbols"), marks));
    }
}

/// A card with so many wrong symbols in each record.
fn write_card(path: &str, wrong: usize) -> std::io::Result<()> {
    let mut chance = Chance::new();
    let mut card = BufWriter::new(std::fs::File::create(path)?);
    for _ in 0..RECORDS {
        let clean = codeword(&mut chance, 7);
        let places = chance.places(wrong, places(7));
        card.write_all(&[7, 0, 255, 255, 255, 255, 255])?;
        card.write_all(&spoiled(&mut chance, 7, &clean, &places))?;
    }
    card.flush()
}

/// A card of day sheets of all pumps, with counts and dates by chance.
fn write_sheets(path: &str) -> std::io::Result<()> {
    let mut chance = Chance::new();
    let mut card = BufWriter::new(std::fs::File::create(path)?);
    let mut word = [0; 132];
    for _ in 0..RECORDS {
        xrs::write_sheet(7, &random_symbols(&mut chance), &mut word).expect("symbols of a sheet");
        card.write_all(&[7, 0, 255, 255, 255, 255, 255])?;
        card.write_all(&word)?;
    }
    card.flush()
}

/// Prints the seconds of the best of three calls.
fn time_call(name: &str, mut call: impl FnMut()) {
    let spent = (0..3).map(|_| {
        let start = Instant::now();
        call();
        start.elapsed()
    });
    println!("{name} {:.6}", spent.min().expect("three calls").as_secs_f64());
}

/// Calls on a card that is read into memory before the clock starts.
fn time_calls(path: &str) -> std::io::Result<()> {
    let card = std::fs::read(path)?;
    let mut old = vec![0; card.len() / xrs::RECORD_SIZE * xrs::OLD_RECORD_SIZE];
    let mut new = vec![0; card.len()];
    time_call("card_to_old", || xrs::card_to_old(&card, &mut old).expect("no record has five marks"));
    time_call("card_to_new", || xrs::card_to_new(&old, &mut new).expect("a card of the old edition"));
    assert!(new == card, "there and back is another card");
    time_call("walk", || {
        let mut walk = xrs::Walk::begin(&new);
        while !walk.is_done() {
            walk.step(&mut new).expect("a step of the walk");
        }
    });
    assert!(new == card, "clean records were changed");
    Ok(())
}

/// The same on a card of sheets.
fn time_window(path: &str) -> std::io::Result<()> {
    let card = std::fs::read(path)?;
    time_call("window", || {
        let report = xrs::window(&card, 28, 88).expect("a window");
        assert_eq!(report.pumps.iter().map(|pump| pump.sheets).sum::<u64>(), RECORDS as u64, "sheets");
    });
    Ok(())
}

fn main() {
    let arguments: Vec<String> = std::env::args().skip(1).collect();
    match arguments.iter().map(String::as_str).collect::<Vec<_>>()[..] {
        ["words"] => time_words(),
        ["card", path] => write_card(path, 0).expect("the card cannot be written"),
        ["worn", path] => write_card(path, 2).expect("the card cannot be written"),
        ["sheets", path] => write_sheets(path).expect("the card cannot be written"),
        ["calls", path] => time_calls(path).expect("the card cannot be read"),
        ["window", path] => time_window(path).expect("the card cannot be read"),
        _ => panic!("usage: bench words | bench card|worn|sheets|calls|window FILE"),
    }
}

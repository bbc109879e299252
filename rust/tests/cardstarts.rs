//! The packaged program cardstarts against tables made from the reference's reports.

use crate::{reference, tools};
use reference::card::{record, RECORD};
use reference::compare::QUARTERS;
use reference::window::{MOST, PUMPS};
use std::ffi::OsStr;
use std::fs;
use std::io::Write;
use std::os::unix::ffi::OsStrExt;
use tools::answers::{table, tabled, HEADER};
use tools::programs::{repository, Ended, Run};
use tools::sheets::{five_slots, random_symbols, sheet, worn_sheet};
use tools::wear::slot_of;
use tools::Chance;

/// The program on these bytes.
fn run(card: &[u8], first: &str, end: &str) -> Ended {
    Run::new("cardstarts", &[first, end]).on(card)
}

/// How it must end.
fn wanted(card: &[u8], first: usize, end: usize) -> Ended {
    tabled(card, "standard input", first, end)
}

/// The time at which a quarter hour begins.
fn clock(quarter: usize) -> String {
    let minutes = 15 * quarter;
    format!("{:02}:{:02}", minutes / 60, minutes % 60)
}

/// Sheets of few pumps, worn ones among them, other records, blank slots.
fn card(chance: &mut Chance, slots: usize) -> Vec<u8> {
    let mut slot = || match chance.below(8) {
        0 => slot_of(chance, 5),
        _ => {
            let mut symbols = random_symbols(chance);
            let high = [1, 4, 128][chance.below(3)];
            symbols[..QUARTERS].iter_mut().for_each(|count| *count = chance.below(high) as u8);
            symbols[99] = [0, 1, 9, 10, 99, 100, 127][chance.below(7)];
            let (wrong, marked) = (chance.below(3), chance.below(4));
            worn_sheet(chance, &symbols, wrong, marked)
        }
    };
    (0..slots).flat_map(|_| slot()).collect()
}

/// The record with other symbols at these bytes.
fn spoiled(mut record: Vec<u8>, changes: &[usize]) -> Vec<u8> {
    changes.iter().for_each(|&at| record[at] ^= 1);
    record
}

/// Sheets of three pumps, two of them worn, and one that is too worn; a small record, blank slots, and a last piece.
fn days() -> Vec<u8> {
    let leap_day = sheet(&[(24, 3), (25, 127), (71, 2), (72, 9)], [24, 2, 29], 5);
    let slots = [
        spoiled(sheet(&[(23, 5), (30, 4)], [24, 11, 2], 12), &[50]),
        leap_day.clone(),
        vec![255; RECORD],
        spoiled(sheet(&[(24, 127)], [23, 12, 31], 5), &[7, 138]),
        spoiled(leap_day.clone(), &[7, 8, 9]),
        sheet(&[(40, 1)], [5, 1, 7], 5),
        sheet(&[], [99, 10, 10], 127),
        record(3, &[0; 12], &[]),
        vec![255; RECORD],
        leap_day[..100].to_vec(),
    ];
    slots.concat()
}

/// The gate runs the program on the card that ships.
#[test]
fn the_card_of_the_gate() {
    let read = |name: &str| fs::read(repository(name)).expect("a file of the repository");
    let text = |name| String::from_utf8(read(name)).expect("a text");
    assert!(read("examples/days.card") == days());
    assert!(read("crates/cardstarts/stdin") == days());
    assert_eq!(text("crates/cardstarts/args"), "06:00\n72\n");
    let lines = "5 3 260 2 127 2023-12-31 86 2\n12 1 4 0 4 2024-11-02 4 0\n127 1 0 0 0 2099-10-10 0 0\nrefused 3\nblank 2\n";
    assert_eq!(table(&days(), 24, 72), HEADER.to_owned() + lines);
    assert_eq!(text("crates/cardstarts/stdout"), HEADER.to_owned() + lines);
    let path = repository("examples/days.card");
    assert_eq!(Run::new("cardstarts", &["06:00", "72", &path]).end(), tabled(&days(), &path, 24, 72));
}

#[test]
fn an_empty_card() {
    assert_eq!(run(&[], "0", "96"), Ended::new(0, HEADER.to_owned() + "refused 0\nblank 0\n", ""));
}

#[test]
fn random_cards() {
    let mut chance = Chance::new();
    for round in 0..40 {
        let slots = chance.below(60);
        let mut card = card(&mut chance, slots);
        card.truncate(card.len() - [0, chance.below(RECORD).min(card.len())][chance.below(2)]);
        let first = chance.below(QUARTERS);
        let end = first + 1 + chance.below(QUARTERS - first);
        let (first_text, end_text) = ([first.to_string(), clock(first)], [end.to_string(), clock(end)]);
        let ended = run(&card, &first_text[chance.below(2)], &end_text[chance.below(2)]);
        assert_eq!(ended, wanted(&card, first, end), "round {round}, from {first} to {end}");
    }
}

/// Every pump, and every year.
#[test]
fn every_pump() {
    let card: Vec<u8> = (0..PUMPS as u8).flat_map(|pump| sheet(&[(0, pump)], [127 - pump, 1, 1], pump)).collect();
    assert_eq!(run(&card, "0", "1"), wanted(&card, 0, 1));
    assert!(table(&card, 0, 1).contains("\n27 1 27 0 27 2100-01-01 27 0\n28 1 28 0 28 2099-01-01 28 0\n"));
}

/// Each quarter hour by its number and by its time.
#[test]
fn every_quarter_hour() {
    let counts: Vec<(usize, u8)> = (0..QUARTERS).map(|quarter| (quarter, 1 + quarter as u8)).collect();
    let card = sheet(&counts, [24, 2, 29], 5);
    for quarter in 0..=QUARTERS {
        for text in [quarter.to_string(), clock(quarter)] {
            if quarter < QUARTERS {
                assert_eq!(run(&card, &text, "96"), wanted(&card, quarter, 96), "from {text}");
            }
            if quarter > 0 {
                assert_eq!(run(&card, "00:00", &text), wanted(&card, 0, quarter), "to {text}");
            }
        }
    }
}

#[test]
fn the_edges_of_a_batch() {
    let mut chance = Chance::new();
    let card = card(&mut chance, 802);
    for slots in [399, 400, 401, 800, 801] {
        for more in [0, 1] {
            let card = &card[..slots * RECORD + more];
            assert_eq!(run(card, "06:00", "18:00"), wanted(card, 24, 72), "{slots} slots and {more} bytes");
        }
    }
}

#[test]
fn a_card_that_comes_in_drops() {
    let mut chance = Chance::new();
    let card = card(&mut chance, 450);
    let drops = |input: &mut dyn Write| card.chunks(61).for_each(|drop| input.write_all(drop).expect("all of the card is read"));
    assert_eq!(Run::new("cardstarts", &["0", "96"]).fed(drops), wanted(&card, 0, 96));
}

/// 1,000,000 records, and further bytes, which are only noticed.
#[test]
fn cards_at_the_limit() {
    let turns = five_slots();
    let mut card = turns.concat().repeat(MOST / turns.len());
    let whole = table(&card, 0, 96);
    assert!(whole.ends_with("\nrefused 200000\nblank 200000\n"));
    assert_eq!(run(&card, "0", "96"), Ended::new(0, whole.clone(), ""));
    assert_eq!(run(&card[..card.len() - 1], "0", "96"), wanted(&card[..card.len() - 1], 0, 96));
    for length in [1, RECORD] {
        card.truncate(MOST * RECORD);
        card.extend(&turns[0][..length]);
        assert_eq!(run(&card, "0", "96"), Ended::new(0, whole.clone() + "more\n", ""));
    }
}

/// What is said of arguments that are no window.
fn refused(what: &str, argument: &[u8]) -> Ended {
    let argument = String::from_utf8_lossy(argument);
    Ended::new(2, "", format!("cardstarts: {what}: {argument}\nusage: cardstarts FIRST END [FILE]\n"))
}

/// Texts that are no quarter hour, as the first argument and as the second.
#[test]
fn bad_times() {
    let numbers = "| |+5|97|100|256|352|00|05|5 | 5|5.|0x5|1e1|a|five|6:00|06:0|06:00:00|06:000|006:00|-";
    let times = "06-00|06.00|0600|:00|06:|:|06:01|06:10|06:60|06:5|24:15|24:30|25:00|99:00|06:00 | 06:00|00000005|000000005|18446744073709551616";
    let texts = numbers.split('|').chain(times.split('|')).map(|text| text.as_bytes().to_vec());
    for text in texts.chain([vec![255], vec![53, 128], vec![53; 4000]]) {
        let argument = OsStr::from_bytes(&text);
        let first = Run::new("cardstarts", &[]).argument(argument).argument("96").end();
        assert_eq!(first, refused("FIRST is no quarter hour from 0 to 96, and no time of one", &text));
        let end = Run::new("cardstarts", &["0"]).argument(argument).end();
        assert_eq!(end, refused("END is no quarter hour from 0 to 96, and no time of one", &text));
    }
}

#[test]
fn windows_without_a_quarter_hour() {
    for (first, end) in [("5", "5"), ("6", "5"), ("0", "0"), ("96", "96"), ("24:00", "96"), ("06:00", "24"), ("96", "0")] {
        assert_eq!(run(&[], first, end), refused("FIRST is not before END", end.as_bytes()), "from {first} to {end}");
    }
}

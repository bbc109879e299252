//! The program cardsheets, which prints day sheets as CSV: texts by the reference, streams, statuses; and the card examples/month.card.

#[allow(dead_code)] // its main writes the card
#[path = "../examples/month.rs"]
mod month;

use crate::{csv, reference, tools};
use csv::{fails_as_it_should, header, line, records_of, streaming, symbols, takes_arguments};
use reference::card::{is_blank, record, RECORD};
use reference::compare::read;
use std::collections::HashMap;
use std::fs;
use std::io::{BufRead, BufReader, Write};
use std::process::Stdio;
use std::thread;
use tools::answers::hint;
use tools::programs::{folder_with, repository, Ended, Fault, Run, EIO};
use tools::sheets::{five_slots, sheet_record, worn_sheet};
use tools::wear::slot_of;
use tools::Chance;

/// The end of cardsheets on a card.
fn tabled(card: &[u8], file: &str) -> Ended {
    let (mut text, mut readings, [mut sheets, mut others, mut blank]) = (header(true), HashMap::new(), [0; 3]);
    for (slot, piece) in (1..).zip(card.chunks(RECORD)) {
        // Equal records are read once.
        match readings.entry(piece).or_insert_with(|| read(piece)) {
            _ if is_blank(piece) => blank += 1,
            Err(_) => others += 1,
            Ok((changed, symbols)) => {
                sheets += 1;
                text += &line(symbols, Some((slot, *changed)));
            }
        }
    }
    let said = hint("cardsheets", file, card.len()) + &format!("sheets {sheets}, no sheets {others}, blank {blank}\n");
    Ended::new((others > 0) as i32, text, said)
}

/// A card of sheets, most of them worn, other records and blank slots.
fn worn_card(chance: &mut Chance, slots: usize) -> Vec<u8> {
    let mut slot = || match chance.below(8) {
        0 => slot_of(chance, 5),
        _ => {
            let symbols = symbols(chance);
            let (wrong, marked) = (chance.below(3), chance.below(4));
            worn_sheet(chance, &symbols, wrong, marked)
        }
    };
    (0..slots).flat_map(|_| slot()).collect()
}

/// The card that ships is the one that is made: two pumps, some sheets that are too worn.
#[test]
fn the_month() {
    let card = fs::read(repository("examples/month.card")).expect("the card");
    assert!(card == month::card());
    let ended = Run::new("cardsheets", &[&repository("examples/month.card")]).end();
    assert_eq!(ended, tabled(&card, ""));
    assert_eq!((ended.status, ended.said.as_str()), (Some(1), "sheets 59, no sheets 3, blank 2\n"));
    let text = String::from_utf8(ended.out).expect("a text");
    for (day, pump) in (1..=31).flat_map(|day| month::PUMPS.map(|pump| (day, pump))) {
        let found = text.contains(&format!(",2026-01-{day:02},{pump},"));
        assert_eq!(found, !month::REFUSED.contains(&(day, pump)), "day {day}, pump {pump}");
    }
}

#[test]
fn random_cards() {
    let mut chance = Chance::new();
    for round in 0..40 {
        let slots = chance.below(60);
        let mut card = worn_card(&mut chance, slots);
        card.truncate(card.len() - [0, chance.below(RECORD).min(card.len())][chance.below(2)]);
        assert_eq!(Run::new("cardsheets", &[]).on(&card), tabled(&card, "standard input"), "round {round}");
    }
}

#[test]
fn the_edges_of_a_batch() {
    let turns = five_slots().concat();
    let card: Vec<u8> = turns.iter().copied().cycle().take(802 * RECORD).collect();
    for slots in [0, 1, 99, 100, 101, 199, 200, 201, 399, 400, 401, 800, 801] {
        for more in [0, 1, RECORD - 1] {
            let card = &card[..slots * RECORD + more];
            let ended = Run::new("cardsheets", &["-"]).on(card);
            assert_eq!(ended, tabled(card, "standard input"), "{slots} slots and {more} bytes");
        }
    }
}

#[test]
fn a_card_that_comes_in_drops() {
    let card = worn_card(&mut Chance::new(), 250);
    let drops = |input: &mut dyn Write| card.chunks(61).for_each(|drop| input.write_all(drop).expect("all of the card is read"));
    assert_eq!(Run::new("cardsheets", &[]).fed(drops), tabled(&card, "standard input"));
}

/// A card of 138 bytes a slot is said to be one.
#[test]
fn an_old_card() {
    let name = repository("examples/old/two.card");
    let card = fs::read(&name).expect("the card");
    let ended = Run::new("cardsheets", &[&name]).end();
    assert_eq!(ended, tabled(&card, &name));
    assert!(ended.said.contains("an old card?"));
}

/// 0 where every record is a sheet, blank slots or not; 1 where one is none.
#[test]
fn statuses_of_cardsheets() {
    let [sheet, blank, other, none, _] = five_slots();
    for (slots, status) in [(vec![], 0), (vec![&sheet, &blank, &other], 0), (vec![&blank], 0), (vec![&sheet, &none], 1), (vec![&none], 1)] {
        let card: Vec<u8> = slots.into_iter().flatten().copied().collect();
        let ended = Run::new("cardsheets", &[]).on(&card);
        assert_eq!(ended.status, Some(status));
        assert_eq!(ended, tabled(&card, "standard input"));
    }
    let short = Run::new("cardsheets", &[]).on(&sheet[..100]);
    assert_eq!((short.status, short.said.as_str()), (Some(1), "sheets 0, no sheets 1, blank 0\n"));
}

/// A read that fails on the way: no counts, and lines of sheets that were read.
#[test]
fn a_card_that_breaks_off() {
    let card = five_slots().concat().repeat(100);
    let folder = folder_with("card", &card);
    let ended = Run::new("cardsheets", &["card"]).within(&folder).fault(Fault::error("read", 3, EIO).most(5000)).end();
    assert_eq!((ended.status, ended.said.as_str()), (Some(2), "cardsheets: card: Input/output error\n"));
    let whole = tabled(&card, "card").out;
    assert!(whole.starts_with(&ended.out) && ended.out.ends_with(b"\n") && ended.out.len() < whole.len());
    let ended = Run::new("cardsheets", &["card"]).within(&folder).fault(Fault::interrupts("read").most(100)).end();
    assert_eq!(ended, tabled(&card, "card"));
}

#[test]
fn failures() {
    let folder = folder_with("failures", &five_slots().concat());
    fails_as_it_should("cardsheets", &folder, "card", &header(true));
}

#[test]
fn arguments() {
    takes_arguments("cardsheets", "usage: cardsheets [FILE]\n");
    assert_eq!(Run::new("cardsheets", &["-o", "a"]).end().status, Some(2));
}

/// A card without end, in no more memory than a few batches need.
#[test]
fn a_million_records() {
    const TURNS: usize = 2000;
    let mut chance = Chance::new();
    let sheets: Vec<Vec<u8>> = (0..500).map(|_| symbols(&mut chance)).collect();
    let card = records_of(&sheets);
    let mut program = streaming("cardsheets", Stdio::piped());
    let (mut input, out) = (program.stdin.take().expect("a pipe"), program.stdout.take().expect("a pipe"));
    thread::scope(|scope| {
        scope.spawn(|| {
            (0..TURNS).for_each(|_| input.write_all(&card).expect("all of the card is read"));
            drop(input);
        });
        let ends: Vec<String> = sheets.iter().map(|symbols| line(symbols, Some((0, 0)))[1..].to_owned()).collect();
        let mut lines = BufReader::new(out).lines();
        let mut next = || lines.next().map(|line| line.expect("a line") + "\n");
        assert_eq!(next(), Some(header(true)));
        for slot in 0..TURNS * sheets.len() {
            assert_eq!(next(), Some(format!("{}{}", slot + 1, ends[slot % sheets.len()])));
        }
        assert_eq!(next(), None);
    });
    assert_eq!(Ended::of(program.wait_with_output().expect("it ends")), Ended::new(0, "", "sheets 1000000, no sheets 0, blank 0\n"));
}

/// The slots are counted behind a million too.
#[test]
fn slots_behind_a_million() {
    let sheet = sheet_record(&[0; 96].into_iter().chain([24, 2, 29, 5]).collect::<Vec<u8>>());
    let none = record(3, &[0; 12], &[]);
    let ended = Run::new("cardsheets", &[]).fed(|input| {
        let blank = vec![255; 1000 * RECORD];
        (0..1000).for_each(|_| input.write_all(&blank).expect("all of the card is read"));
        [&none, &sheet].into_iter().for_each(|slot| input.write_all(slot).expect("all of the card is read"));
    });
    let text = format!("{}1000002,2024-02-29,5,0{}\n", header(true), ",0".repeat(96));
    assert_eq!(ended, Ended::new(1, text, "sheets 1, no sheets 1, blank 1000000\n"));
}

//! The packaged programs cardrestore and cardcheck, one after the other as a user runs them, against the reference.

use crate::{reference, tools};
use reference::card::{judge, list, record, RECORD};
use std::fs;
use std::io::{Read, Write};
use std::process::{Command, Stdio};
use std::thread;
use tools::answers::{checked, listed, restored, restored_card, words, LONGEST};
use tools::programs::{path, repository, Ended, Run};
use tools::wear::{codeword, worn, worn_card};
use tools::Chance;

/// What the messages call the card.
const INPUT: &str = "standard input";

/// A program without arguments on these bytes.
fn run(name: &str, card: &[u8]) -> Ended {
    Run::new(name, &[]).on(card)
}

/// The way of a card: it is checked and restored, then checked, listed and restored again.
fn way(card: &[u8], name: &str) {
    assert_eq!(run("cardcheck", card), checked(card, INPUT), "{name}: checked");
    let first = run("cardrestore", card);
    assert_eq!(first, restored(card, INPUT, LONGEST), "{name}: restored");
    let out = first.out;
    assert_eq!(out.len(), card.len(), "{name}");
    assert_eq!(run("cardcheck", &out), checked(&out, INPUT), "{name}: checked after");
    assert_eq!(run("cardlist", &out), listed(&out, INPUT), "{name}: listed after");
    let again = run("cardrestore", &out);
    assert!(again.out == out, "{name}: restored again");
    assert!(again.said.contains(", changed 0, "), "{name}: {}", again.said);
}

/// The line of cardrestore has the numbers of cardlist's last line.
#[test]
fn the_cards_that_ship() {
    for name in ["two", "worn", "old/two", "old/worn"] {
        let file = repository(&format!("examples/{name}.card"));
        let card = fs::read(&file).expect("an example");
        way(&card, name);
        assert_eq!(Run::new("cardcheck", &[&file]).end(), checked(&card, &file));
        assert_eq!(Run::new("cardrestore", &[&file]).end(), restored(&card, &file, LONGEST));
        let listing = String::from_utf8(run("cardlist", &card).out).expect("a listing is text");
        let total: Vec<&str> = listing.lines().last().expect("a total line").split(' ').collect();
        let said = run("cardrestore", &card).said;
        let line = format!("restored {}, changed {}, refused {}, ", total[1], total[3], total[2]);
        assert!(said.lines().last().expect("a last line").starts_with(&line), "{name}: {said}");
    }
}

/// What the gate compares with is what the reference makes.
#[test]
fn the_card_of_the_gate() {
    let file = |name: &str| fs::read(repository(&format!("crates/cardrestore/{name}"))).expect("a card");
    assert!(restored_card(&file("stdin"), LONGEST).0 == file("stdout"));
}

#[test]
fn an_empty_card() {
    way(&[], "empty");
    assert_eq!(run("cardrestore", &[]), Ended::new(0, "", "restored 0, changed 0, refused 0, blank 0\n"));
    assert_eq!(run("cardcheck", &[]), Ended::new(0, "ok\n", ""));
}

/// Each longest reach, on cards on which each makes a difference.
#[test]
fn each_longest_reach() {
    let mut chance = Chance::new();
    let card = worn_card(&mut chance, 900, 7);
    let counts = [0, 1, 2].map(|most| {
        let ended = Run::new("cardrestore", &["--reach", &most.to_string()]).on(&card);
        assert_eq!(ended, restored(&card, INPUT, most), "reach {most}");
        restored_card(&card, most).1
    });
    assert!(counts[0].restored < counts[1].restored && counts[1].restored < counts[2].restored);
    assert_eq!(counts[0].changed, 0);
    assert_eq!(run("cardrestore", &card), restored(&card, INPUT, LONGEST), "without a reach");
}

#[test]
fn short_last_pieces() {
    let clean = record(7, &codeword(&mut Chance::new(), 7), &[]);
    for length in [1, 2, RECORD - 1, RECORD, RECORD + 1, 2 * RECORD - 1, 2 * RECORD, 2 * RECORD + 1] {
        let card: Vec<u8> = clean.iter().cycle().take(length).copied().collect();
        way(&card, &format!("{length} bytes"));
        way(&vec![255; length], &format!("{length} bytes of 255"));
    }
}

#[test]
fn random_cards() {
    let mut chance = Chance::new();
    for round in 0..8 {
        let (slots, further) = (chance.below(900), chance.below(RECORD));
        way(&worn_card(&mut chance, slots, further), &format!("round {round}"));
    }
}

#[test]
fn the_edges_of_a_batch() {
    let mut chance = Chance::new();
    let card: Vec<u8> = (0..802).flat_map(|_| worn(&mut chance, 3)).collect();
    let fine: Vec<u8> = (0..802).flat_map(|_| record(3, &codeword(&mut chance, 3), &[])).collect();
    for records in [0, 1, 399, 400, 401, 800, 801] {
        for more in [0, 1] {
            let name = format!("{records} records and {more} bytes");
            way(&card[..records * RECORD + more], &name);
            way(&fine[..records * RECORD + more], &name);
        }
        let mut late = fine.clone();
        late[records * RECORD] = 6;
        assert_eq!(run("cardcheck", &late), Ended::new(1, format!("{} 1 {}\n", records + 1, words(1)), ""));
    }
}

/// Each refusal that a record can get.
#[test]
fn the_words_of_each_refusal() {
    let mut chance = Chance::new();
    let mut met = std::collections::BTreeSet::new();
    for _ in 0..4000 {
        let slot = worn(&mut chance, 3);
        if let Err(refusal) = judge(&slot) {
            if met.insert(refusal) {
                assert_eq!(run("cardcheck", &slot), Ended::new(1, format!("1 {refusal} {}\n", words(refusal)), ""));
            }
        }
    }
    let most = [1, 3, 4, 5, 6, 7, 8, 14];
    assert!(most.iter().all(|refusal| met.contains(refusal)), "{met:?}");
}

#[test]
fn a_card_that_comes_in_drops() {
    let mut chance = Chance::new();
    let card: Vec<u8> = (0..450).flat_map(|_| worn(&mut chance, 5)).collect();
    let drops = |input: &mut dyn Write| card.chunks(61).for_each(|drop| input.write_all(drop).expect("all of the card is read"));
    assert_eq!(Run::new("cardrestore", &[]).fed(drops), restored(&card, INPUT, LONGEST));
}

/// As a user types it: one program's output is the other's input.
#[test]
fn through_a_pipe() {
    let card = repository("examples/worn.card");
    let line = format!("'{}' < '{card}' 2>/dev/null | '{}'", path("cardrestore"), path("cardlist"));
    let mut command = Command::new("sh");
    command.args(["-c", &line]);
    let restored = restored_card(&fs::read(card).expect("an example"), LONGEST).0;
    assert_eq!(Run::of(command).end(), Ended::new(0, list(&restored), ""));
}

/// Slots that take turns on a large card.
fn turns() -> Vec<Vec<u8>> {
    let mut chance = Chance::new();
    let (clean, small) = (codeword(&mut chance, 7), codeword(&mut chance, 3));
    let mut wrong = small.clone();
    wrong[11] ^= 1;
    let mut large = small.clone();
    large[2] = 8;
    let blank = vec![255; RECORD];
    vec![record(7, &clean, &[]), record(3, &small, &[4]), record(3, &wrong, &[]), record(3, &large, &[]), blank]
}

/// A card of 1,000,000 slots, made while the program reads; what it writes is compared while it comes.
#[test]
fn a_million_slots() {
    const SLOTS: usize = 1_000_000;
    let turns = turns();
    let (after, counts) = restored_card(&turns.concat(), LONGEST);
    let rounds = SLOTS / turns.len();
    let line = format!("restored {}, changed {}, refused {}, blank {}\n", 3 * rounds, rounds, rounds, rounds);
    assert_eq!(counts.line(), "restored 3, changed 1, refused 1, blank 1\n");
    let mut program = Run::new("cardrestore", &[]).input(Stdio::piped()).begin();
    let (mut input, mut output) = (program.stdin.take().expect("a pipe"), program.stdout.take().expect("a pipe"));
    thread::scope(|scope| {
        let several = turns.concat();
        scope.spawn(move || (0..rounds).for_each(|_| input.write_all(&several).expect("all of the card is read")));
        let mut piece = vec![0; after.len()];
        for round in 0..rounds {
            output.read_exact(&mut piece).expect("as many bytes as were read");
            assert!(piece == after, "round {round}");
        }
        assert_eq!(output.read(&mut piece).expect("the end"), 0);
    });
    assert_eq!(Ended::of(program.wait_with_output().expect("the program ends")), Ended::new(1, "", line));
}

/// The last slot of 1,000,001 is the first that would be refused, and cardcheck knows no limit.
#[test]
fn checked_behind_a_million_slots() {
    let fine = [record(3, &codeword(&mut Chance::new(), 3), &[]), vec![255; RECORD]].concat();
    let ended = Run::new("cardcheck", &[]).fed(|input| {
        (0..500_000).for_each(|_| input.write_all(&fine).expect("all of the card is read"));
        input.write_all(&[7]).expect("all of the card is read");
    });
    assert_eq!(ended, Ended::new(1, "1000001 2 the length is not the right one\n", ""));
}

//! The packaged program cardlist against listings by the reference. Cards at the limit are made while it reads.

use crate::{reference, tools};
use reference::card::{is_blank, judge, list, record, Listing, LISTED, RECORD};
use std::fs::{self, File};
use std::io::Write;
use tools::answers::listed;
use tools::programs::{folder_with, repository, Run};
use tools::wear::{codeword, worn, worn_card};
use tools::Chance;

/// The listing of the card that `make` writes, of which nothing is said.
fn text_of(make: impl FnOnce(&mut dyn Write) + Send) -> String {
    let ended = Run::new("cardlist", &[]).fed(make);
    assert_eq!((ended.status, ended.said.as_str()), (Some(0), ""));
    String::from_utf8(ended.out).expect("a listing is text")
}

/// The listing of these bytes, which must be that of the reference.
fn listed_bytes(card: &[u8]) -> String {
    let ended = Run::new("cardlist", &[]).on(card);
    assert_eq!(ended, listed(card, "standard input"), "{} bytes", card.len());
    String::from_utf8(ended.out).expect("a listing is text")
}

#[test]
fn the_example_of_document_01() {
    let mut case_f = [0; 12];
    case_f[5] = 1;
    let mut case_n = [0; 12];
    case_n[4] = 1;
    let card = [record(3, &case_f, &[]), record(3, &case_n, &[0, 1, 2, 3])].concat();
    assert_eq!(listed_bytes(&card), "1 3 0 1\n2 3 7 0\ntotal 1 1 1\n");
}

#[test]
fn the_cards_that_ship() {
    for name in ["two", "worn", "old/two", "old/worn"] {
        let path = repository(&format!("examples/{name}.card"));
        let card = fs::read(&path).expect("an example");
        listed_bytes(&card);
        assert_eq!(Run::new("cardlist", &[&path]).end(), listed(&card, &path), "{name}");
    }
}

#[test]
fn an_empty_card() {
    assert_eq!(listed_bytes(&[]), "total 0 0 0\n");
}

#[test]
fn one_byte() {
    for byte in 0..=255 {
        assert_eq!(listed_bytes(&[byte]), format!("1 {byte} 2 0\ntotal 0 1 0\n"));
    }
}

#[test]
fn short_last_pieces() {
    let clean = record(7, &codeword(&mut Chance::new(), 7), &[]);
    for length in [1, 2, RECORD - 1, RECORD, RECORD + 1, 2 * RECORD - 1, 2 * RECORD, 2 * RECORD + 1] {
        listed_bytes(&clean.iter().cycle().take(length).copied().collect::<Vec<u8>>());
    }
}

#[test]
fn new_cards() {
    for slots in [1, 2, 399, 400, 401, 900] {
        let wanted: String = (1..=slots).map(|number| format!("{number} blank\n")).collect();
        assert_eq!(listed_bytes(&vec![255; slots * RECORD]), wanted + "total 0 0 0\n", "{slots} slots");
    }
}

#[test]
fn blank_slots_between_records() {
    let small = record(3, &[0; 12], &[]);
    let mut refused = small.clone();
    refused[1] = 9;
    let card = [vec![255; RECORD], small, vec![255; 2 * RECORD], refused, vec![255; RECORD]].concat();
    assert_eq!(listed_bytes(&card), "1 blank\n2 3 0 0\n3 blank\n4 blank\n5 3 3 0\n6 blank\ntotal 1 1 0\n");
}

/// A slot is blank in all its bytes or not at all.
#[test]
fn almost_blank_slots() {
    for at in 0..RECORD {
        let mut card = vec![255; 2 * RECORD];
        card[at] = 254;
        let first = card[0];
        assert_eq!(listed_bytes(&card), format!("1 {first} 1 0\n2 blank\ntotal 0 1 0\n"), "byte {at}");
    }
}

/// A shorter last piece is a record that is refused with 2, not a blank slot.
#[test]
fn blank_bytes_at_the_end() {
    for (length, wanted) in
        [(RECORD - 1, "1 255 2 0\ntotal 0 1 0\n"), (RECORD, "1 blank\ntotal 0 0 0\n"), (RECORD + 1, "1 blank\n2 255 2 0\ntotal 0 1 0\n")]
    {
        assert_eq!(listed_bytes(&vec![255; length]), wanted);
    }
}

#[test]
fn random_cards() {
    let mut chance = Chance::new();
    for _ in 0..12 {
        let (slots, further) = (chance.below(900), chance.below(RECORD));
        listed_bytes(&worn_card(&mut chance, slots, further));
    }
}

#[test]
fn the_edges_of_a_batch() {
    let mut chance = Chance::new();
    let card: Vec<u8> = (0..802).flat_map(|_| worn(&mut chance, 3)).collect();
    for records in [399, 400, 401, 800, 801] {
        for more in [0, 1] {
            listed_bytes(&card[..records * RECORD + more]);
        }
    }
}

#[test]
fn a_card_that_comes_in_drops() {
    let mut chance = Chance::new();
    let card: Vec<u8> = (0..450).flat_map(|_| worn(&mut chance, 5)).collect();
    let text = text_of(|input| card.chunks(61).for_each(|drop| input.write_all(drop).expect("all of the card is read")));
    assert_eq!(text, list(&card));
}

#[test]
fn the_card_is_not_written() {
    let mut chance = Chance::new();
    let card: Vec<u8> = (0..50).flat_map(|_| worn(&mut chance, 3)).collect();
    let folder = folder_with("unwritten", &card);
    let path = folder.join("card");
    let file = File::options().read(true).write(true).open(&path).expect("the file");
    assert_eq!(Run::new("cardlist", &[]).input(file).end(), listed(&card, "standard input"));
    assert!(fs::read(path).expect("the file") == card);
}

/// Seven records and a blank slot that take turns on a large card, no two of them with the same line.
fn turns() -> Vec<Vec<u8>> {
    let mut chance = Chance::new();
    let clean = codeword(&mut chance, 7);
    let small = codeword(&mut chance, 3);
    let mut wrong = small.clone();
    wrong[11] ^= 1;
    let mut two_wrong = wrong.clone();
    two_wrong[0] ^= 6;
    let mut large = small.clone();
    large[2] = 8;
    vec![
        record(7, &clean, &[]),
        record(3, &small, &[]),
        record(3, &wrong, &[]),
        record(3, &two_wrong, &[]),
        record(3, &large, &[]),
        record(3, &small, &[12]),
        record(9, &small, &[]),
        vec![255; RECORD],
    ]
}

/// Lists so many slots and further bytes, made one after the other, and compares the text with the reference.
fn large_card(slots: usize, further: &[u8]) {
    let turns = turns();
    let judged: Vec<_> = turns.iter().map(|record| judge(record)).collect();
    assert_eq!(judged, [Ok(0), Ok(0), Ok(1), Ok(2), Err(6), Err(4), Err(1), Err(1)]);
    let mut wanted = Listing::default();
    for i in (0..8).cycle().take(slots) {
        if is_blank(&turns[i]) {
            wanted.add_blank();
        } else {
            wanted.add(turns[i][0], judged[i]);
        }
    }
    let text = text_of(|input| {
        let several = turns.concat();
        let (rounds, rest) = (slots / 8, slots % 8);
        (0..rounds).for_each(|_| input.write_all(&several).expect("all of the card is read"));
        input.write_all(&several[..rest * RECORD]).expect("all of the card is read");
        input.write_all(further).expect("a pipe has room for it");
    });
    let wanted = wanted.end(!further.is_empty());
    assert!(text == wanted, "the text ends with {:?}, not {:?}", tail(&text), tail(&wanted));
}

/// The last characters of a text.
fn tail(text: &str) -> &str {
    &text[text.len().saturating_sub(60)..]
}

/// The last slot is blank.
#[test]
fn as_many_slots_as_are_listed() {
    large_card(LISTED, &[]);
}

#[test]
fn one_byte_more() {
    large_card(LISTED, &[3]);
}

#[test]
fn two_records_more() {
    large_card(LISTED, &turns()[..2].concat());
}

#[test]
fn a_blank_slot_more() {
    large_card(LISTED, &[255; RECORD]);
}

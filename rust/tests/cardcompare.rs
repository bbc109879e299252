//! The program cardcompare, which sets two day sheets side by side: texts by the reference, refusals, statuses, the numbers that it takes.

use crate::{reference, tools};
use reference::card::{record, RECORD};
use reference::compare::{compare, read, QUARTERS};
use reference::sheet::SIZE;
use std::fs;
use std::path::Path;
use tools::answers::{hint, refusal_line, words};
use tools::calls::{fails_as_it_should, runs_as_before, takes_arguments};
use tools::programs::{folder, folder_with, full, names, Ended, Fault, Folder, Run, BATCH_SLOTS, EIO, ENOSPC};
use tools::sheets::{five_slots, random_symbols, sheet_record, worn_sheet};
use tools::wear::{codeword, slot_of};
use tools::Chance;

const USAGE: &str = "usage: cardcompare N FILE M FILE\n";

/// A record of a card, and the name of the card in messages.
#[derive(Clone, Copy)]
struct Asked<'a> {
    card: &'a [u8],
    number: u64,
    file: &'a str,
}

impl Asked<'_> {
    /// Its changed places and symbols, or the end where it is refused.
    fn read(&self) -> Result<(u8, Vec<u8>), Ended> {
        let slot = self.card.chunks(RECORD).nth(self.number as usize - 1).ok_or(17);
        slot.and_then(read).map_err(|refusal| self.refused(refusal))
    }

    fn refused(&self, refusal: u8) -> Ended {
        Ended::new(2, "", format!("cardcompare: {}: {}", self.file, refusal_line(self.number, refusal)))
    }

    /// What is said of the card where it looks like an old one. It is read no further than the batch of the record, and its length is known
    /// only at its end.
    fn hint(&self) -> String {
        let before = (self.number as usize - 1) / BATCH_SLOTS * BATCH_SLOTS * RECORD;
        match self.card.len() < before + BATCH_SLOTS * RECORD {
            true => hint("cardcompare", self.file, self.card.len()),
            false => String::new(),
        }
    }
}

/// The text of two sheets of one pump and date.
fn text(ours: &[u8], theirs: &[u8], totals: [u8; 3], chosen: &str) -> String {
    let [year, month, day, pump] = <[u8; 4]>::try_from(&ours[QUARTERS..]).expect("four symbols behind the counts");
    let [a, b] = [ours, theirs].map(|symbols| symbols[..QUARTERS].iter().map(|&count| u32::from(count)).sum::<u32>());
    let [equal, higher, lower] = totals;
    let sheet = format!("date {}-{month:02}-{day:02}\npump {pump}\nstarts: controller {a}, cupboard {b}\n", 2000 + u32::from(year));
    let quarters = format!("quarter hours: equal {equal}, controller higher {higher}, cupboard higher {lower}\nchosen: {chosen}\n");
    let line = |quarter: usize| {
        let [hour, minute] = [quarter / 4, quarter % 4 * 15];
        format!("{hour:02}:{minute:02} controller {}, cupboard {}\n", ours[quarter], theirs[quarter])
    };
    let lines: String = (0..QUARTERS).filter(|&quarter| ours[quarter] != theirs[quarter]).map(line).collect();
    sheet + &quarters + &lines
}

/// The end of cardcompare. Of old cards it is said last.
fn compared(controller: Asked, cupboard: Asked) -> Ended {
    let mut ended = answered(controller, cupboard);
    ended.said += &(controller.hint() + &cupboard.hint());
    ended
}

/// The same without that: the controller's record is asked first.
fn answered(controller: Asked, cupboard: Asked) -> Ended {
    let (ours, theirs) = match (controller.read(), cupboard.read()) {
        (Err(refused), _) | (_, Err(refused)) => return refused,
        (Ok((_, ours)), Ok((_, theirs))) => (ours, theirs),
    };
    match compare((controller.card, controller.number), (cupboard.card, cupboard.number), QUARTERS) {
        Err(refusal) => cupboard.refused(refusal),
        Ok(found) => {
            let chosen = if found.cupboard_chosen { "cupboard" } else { "controller" };
            Ended::new((found.totals[0] < 96).into(), text(&ours, &theirs, found.totals, chosen), "")
        }
    }
}

/// A folder with the two cards.
fn cards(name: &str, controller: &[u8], cupboard: &[u8]) -> Folder {
    let folder = folder_with(name, controller);
    fs::write(folder.join("other"), cupboard).expect("a card");
    folder
}

fn run(folder: &Path, arguments: &[&str]) -> Run {
    Run::new("cardcompare", arguments).within(folder)
}

/// The end of cardcompare on two cards, which must be that of the reference; the cards are as they were.
fn look(controller: &[u8], number: u64, cupboard: &[u8], other_number: u64) -> Ended {
    let folder = cards("cards", controller, cupboard);
    let [first, second] = [number, other_number].map(|number| number.to_string());
    let ended = run(&folder, &[&first, "card", &second, "other"]).end();
    let side = |card, number, file| Asked { card, number, file };
    let wanted = compared(side(controller, number, "card"), side(cupboard, other_number, "other"));
    assert_eq!(ended, wanted, "{number} and {other_number}: {:?}", String::from_utf8_lossy(&ended.out));
    assert!(fs::read(folder.join("card")).expect("a card") == controller && fs::read(folder.join("other")).expect("a card") == cupboard);
    assert_eq!(names(&folder), ["card", "other"]);
    ended
}

/// The same for cards of one record each: the status, and the text.
fn look_at(controller: &[u8], cupboard: &[u8]) -> (i32, String) {
    let ended = look(controller, 1, cupboard, 1);
    (ended.status.expect("a status"), String::from_utf8(ended.out).expect("a text"))
}

/// The refusal number of either card's only record, from what is said.
fn refused_as(controller: &[u8], cupboard: &[u8], file: &str, refusal: u8) {
    assert_eq!(look(controller, 1, cupboard, 1), Asked { card: &[], number: 1, file }.refused(refusal));
}

/// Symbols of 29 February 2024 and pump 5 with these counts.
fn leap_day(counts: &[(usize, u8)]) -> Vec<u8> {
    let mut symbols = vec![0; SIZE];
    counts.iter().for_each(|&(quarter, count)| symbols[quarter] = count);
    symbols[QUARTERS..].copy_from_slice(&[24, 2, 29, 5]);
    symbols
}

#[test]
fn equal_sheets() {
    let sheet = sheet_record(&leap_day(&[(0, 100), (40, 20)]));
    let text = "date 2024-02-29\npump 5\nstarts: controller 120, cupboard 120\n\
        quarter hours: equal 96, controller higher 0, cupboard higher 0\nchosen: controller\n";
    assert_eq!(look_at(&sheet, &sheet), (0, text.to_owned()));
    let full = sheet_record(&[vec![127; QUARTERS], vec![127, 12, 31, 127]].concat());
    let text = "date 2127-12-31\npump 127\nstarts: controller 12192, cupboard 12192\n\
        quarter hours: equal 96, controller higher 0, cupboard higher 0\nchosen: controller\n";
    assert_eq!(look_at(&full, &full), (0, text.to_owned()));
}

#[test]
fn sheets_that_differ() {
    let controller = leap_day(&[(0, 110), (25, 3), (26, 1), (95, 6)]);
    let cupboard = leap_day(&[(0, 110), (25, 4), (27, 2), (94, 1)]);
    let text = "date 2024-02-29\npump 5\nstarts: controller 120, cupboard 117\n\
        quarter hours: equal 91, controller higher 2, cupboard higher 3\nchosen: controller\n\
        06:15 controller 3, cupboard 4\n06:30 controller 1, cupboard 0\n06:45 controller 0, cupboard 2\n\
        23:30 controller 0, cupboard 1\n23:45 controller 6, cupboard 0\n";
    assert_eq!(look_at(&sheet_record(&controller), &sheet_record(&cupboard)), (1, text.to_owned()));
}

/// Each quarter hour alone, and all of them.
#[test]
fn every_quarter_hour() {
    let sheet = sheet_record(&leap_day(&[]));
    for quarter in 0..QUARTERS {
        let (status, text) = look_at(&sheet, &sheet_record(&leap_day(&[(quarter, 127)])));
        let time = format!("{:02}:{:02}", quarter * 15 / 60, quarter * 15 % 60);
        assert!(status == 1 && text.ends_with(&format!("chosen: controller\n{time} controller 0, cupboard 127\n")), "{text}");
    }
    let higher: Vec<(usize, u8)> = (0..QUARTERS).map(|quarter| (quarter, 127 - quarter as u8)).collect();
    let (status, text) = look_at(&sheet_record(&leap_day(&higher)), &sheet);
    assert!(status == 1 && text.contains("equal 0, controller higher 96, cupboard higher 0\n") && text.lines().count() == 5 + QUARTERS, "{text}");
}

/// The sheet with fewer changed places is chosen, on a tie the controller's; what stands at an erasure is no change.
#[test]
fn the_chosen_sheet() {
    let mut chance = Chance::new();
    let symbols = random_symbols(&mut chance);
    for (wrong, marked) in [(0, 0), (0, 4), (1, 0), (1, 2), (2, 0)] {
        for (other_wrong, other_marked) in [(0, 0), (0, 3), (1, 0), (1, 2), (2, 0)] {
            let controller = worn_sheet(&mut chance, &symbols, wrong, marked);
            let cupboard = worn_sheet(&mut chance, &symbols, other_wrong, other_marked);
            let (status, text) = look_at(&controller, &cupboard);
            let chosen = if other_wrong < wrong { "cupboard" } else { "controller" };
            assert!(status == 0 && text.ends_with(&format!("\nchosen: {chosen}\n")), "{wrong} wrong, {other_wrong} there: {text}");
        }
    }
}

/// Cards of several slots, the numbers by chance, sheets of one day or nearly so.
#[test]
fn random_cards() {
    let mut chance = Chance::new();
    let (mut statuses, mut chosen, mut said) = ([0; 3], 0, String::new());
    for _ in 0..400 {
        let symbols = random_symbols(&mut chance);
        let [(controller, number), (cupboard, other_number)] = [0, 1].map(|_| {
            let mut day = symbols.clone();
            for _ in 0..[0, 0, 3, 60][chance.below(4)] {
                day[chance.below(QUARTERS)] = [0, 126, 127, chance.below(128) as u8][chance.below(4)];
            }
            day[99] ^= (chance.below(12) == 0) as u8;
            let (wrong, marked) = (chance.below(3), chance.below(3));
            let own = if chance.below(9) == 0 { slot_of(&mut chance, 5) } else { worn_sheet(&mut chance, &day, wrong, marked) };
            let (before, behind) = (chance.below(3), chance.below(RECORD));
            let card: Vec<u8> = (0..before).flat_map(|_| slot_of(&mut chance, 5)).chain(own).chain(vec![9; behind]).collect();
            (card, if chance.below(12) == 0 { 1 + chance.below(5) } else { before + 1 } as u64)
        });
        let ended = look(&controller, number, &cupboard, other_number);
        statuses[ended.status.expect("a status") as usize] += 1;
        chosen += String::from_utf8_lossy(&ended.out).contains("\nchosen: cupboard\n") as usize;
        said += &ended.said;
    }
    assert!(statuses.iter().all(|&count| count > 20) && chosen > 20, "{statuses:?}, {chosen}");
    for refusal in [1, 7, 11, 17, 20] {
        assert!(said.contains(&format!(" {refusal} {}\n", words(refusal))), "refusal {refusal}");
    }
}

/// Records that are no day sheets, each with its refusal number; a blank slot is one, and a short piece.
fn refused_records() -> Vec<(u8, Vec<u8>)> {
    let mut chance = Chance::new();
    let symbols = random_symbols(&mut chance);
    let good = sheet_record(&symbols);
    let with = |bytes: &[(usize, u8)]| {
        let mut record = good.clone();
        bytes.iter().for_each(|&(at, byte)| record[at] = byte);
        record
    };
    let data = |at: usize, symbol: u8| {
        let mut data = [&symbols[..], &[0; 27]].concat();
        data[at] = symbol;
        record(7, &reference::encode(7, &data, 132).expect("data of the width"), &[])
    };
    vec![
        (1, vec![255; RECORD]),
        (1, with(&[(0, 6)])),
        (2, good[..RECORD - 2].to_vec()),
        (2, good[..1].to_vec()),
        (3, with(&[(1, 6)])),
        (4, with(&[(1, 1), (2, 132)])),
        (5, with(&[(1, 2), (2, 9), (3, 9)])),
        (6, with(&[(20, 128)])),
        (7, with(&[(7, good[7] ^ 1), (8, good[8] ^ 1), (9, good[9] ^ 1)])),
        (8, with(&[(2, 0)])),
        (11, record(4, &codeword(&mut chance, 4), &[])),
        (12, data(97, 13)),
        (13, data(126, 1)),
        (14, record(3, &[0; 12], &[2, 4, 5, 6, 8])),
        (17, Vec::new()),
    ]
}

/// The controller's refusal comes first, whatever the cupboard's is; 17 is one among them.
#[test]
fn the_refusals_of_the_records() {
    let good = sheet_record(&random_symbols(&mut Chance::new()));
    for (refusal, bad) in refused_records() {
        refused_as(&bad, &good, "card", refusal);
        refused_as(&good, &bad, "other", refusal);
        for (_, other) in refused_records() {
            refused_as(&bad, &other, "card", refusal);
        }
    }
}

/// Year, month, day and pump must all be the same: the cupboard's record is told.
#[test]
fn the_same_pump_and_day() {
    let symbols = leap_day(&[(3, 4)]);
    for (at, other) in [(96, 28), (97, 3), (98, 28), (99, 6)] {
        let mut another = symbols.clone();
        another[at] = other;
        let [day, mut another] = [symbols.clone(), another].map(|symbols| sheet_record(&symbols));
        refused_as(&day, &another, "other", 20);
        refused_as(&another, &day, "other", 20);
        another[12 + at] = day[12 + at]; // a wrong symbol that hides it
        refused_as(&day, &another, "other", 20);
        let mut hidden = day.clone();
        hidden[12 + at] = other;
        assert_eq!(look_at(&hidden, &day).0, 0, "the wrong symbol is undone");
        let ended = look(&[day.clone(), day].concat(), 2, &[vec![255; RECORD * 8], another].concat(), 9);
        assert_eq!(ended.said, "cardcompare: other: 9 20 the two day sheets have not the same pump and date\n");
    }
}

/// Records behind the first batch, and numbers beyond the cards.
#[test]
fn numbers_of_records() {
    let [blank, sheet] = [vec![255; RECORD], sheet_record(&leap_day(&[(7, 7)]))];
    let card = [blank.repeat(400), sheet.clone(), blank.repeat(399), sheet.clone(), vec![255; 30]].concat();
    for number in [1, 400, 401, 402, 800, 801, 802, 803, 1201, 1601, 999_999_999_999_999] {
        look(&card, number, &sheet, 1);
        look(&sheet, 1, &card, number);
        look(&card, 401, &card, number);
        look(&card, number, &card, number);
    }
    assert_eq!(look(&card, 401, &card, 801).status, Some(0));
    assert_eq!(look(&card, 803, &card, 804).said, "cardcompare: card: 803 17 the card has no record of that number\n");
    assert_eq!(look(&card, 801, &card, 804).said, "cardcompare: other: 804 17 the card has no record of that number\n");
    let folder = cards("zeros", &card, &sheet);
    assert_eq!(run(&folder, &["0401", "card", "00001", "other"]).end().status, Some(0));
}

/// Cards of 138 bytes a slot are said to be such, each one that was read to its end.
#[test]
fn old_cards() {
    let sheet = sheet_record(&leap_day(&[(7, 7)]));
    let old = |slots: usize| sheet.iter().copied().cycle().take(138 * slots).collect::<Vec<u8>>();
    for (slots, other) in [(1, 3), (2, 138), (139, 2), (402, 403), (404, 404), (3, 0)] {
        for (number, other_number) in [(1, 1), (2, 1), (401, 1), (1, 401), (500, 1), (1, 500)] {
            look(&old(slots), number, &old(other), other_number);
        }
    }
    let both = "no whole number of slots of 139 bytes, but one of 138: an old card? see cardconvert\n";
    assert_eq!(look(&old(2), 1, &old(3), 1).said, format!("cardcompare: card: {both}cardcompare: other: {both}"));
}

/// One of the two may be standard input, a file or a pipe; both may be one file.
#[test]
fn standard_input() {
    let [sheet, other] = [&[(7, 7)][..], &[(7, 8)]].map(|counts| sheet_record(&leap_day(counts)));
    let [card, cupboard] = [[five_slots().concat(), sheet].concat(), [vec![255; RECORD * 450], other].concat()];
    let folder = cards("cards", &card, &cupboard);
    let [ours, theirs] = [Asked { card: &card, number: 6, file: "card" }, Asked { card: &cupboard, number: 451, file: "other" }];
    let wanted = compared(ours, theirs);
    assert_eq!(wanted.status, Some(1));
    assert_eq!(run(&folder, &["6", "-", "451", "other"]).on(&card), wanted);
    assert_eq!(run(&folder, &["6", "card", "451", "-"]).on(&cupboard), wanted);
    let file = || fs::File::open(folder.join("other")).expect("a card");
    assert_eq!(run(&folder, &["6", "card", "451", "-"]).input(file()).end(), wanted);
    assert_eq!(run(&folder, &["6", "card", "6", "card"]).end(), compared(ours, ours));
    let refused = |number, refusal| Asked { card: &[], number, file: "standard input" }.refused(refusal);
    assert_eq!(run(&folder, &["7", "-", "452", "other"]).on(&card), refused(7, 17));
    assert_eq!(run(&folder, &["6", "card", "452", "-"]).on(&cupboard), refused(452, 17));
    assert_eq!(run(&folder, &["1", "card", "451", "-"]).on(&cupboard), refused(451, 20));
    let untaken = Ended::new(2, "", format!("cardcompare: can't take the argument -\n{USAGE}"));
    assert_eq!(run(&folder, &["6", "-", "451", "-"]).on(&card), untaken);
    assert_eq!(run(&folder, &["6", "-", "6", "-"]).end(), untaken);
}

#[test]
fn arguments() {
    takes_arguments("cardcompare", &["1", "a", "1", "b"], USAGE);
    let card = sheet_record(&leap_day(&[]));
    let folder = cards("cards", &card, &card);
    for count in 0..4 {
        let ended = run(&folder, &["1", "card", "1"][..count]).end();
        assert_eq!(ended, Ended::new(2, "", format!("cardcompare: an argument is missing\n{USAGE}")));
    }
    for text in ["0", "+1", "1x", "", " 1", "1.0", "-", "99999999999999999999", "18446744073709551617"] {
        for (name, first, second) in [("N", text, "1"), ("M", "1", text), ("N", text, text)] {
            let arguments = [first, "nowhere", second, "other"];
            let wanted = Ended::new(2, "", format!("cardcompare: {name} is no number of a record: {text}\n{USAGE}"));
            assert_eq!(run(&folder, &arguments).end(), wanted, "{arguments:?}");
        }
    }
    let untaken = Ended::new(2, "", format!("cardcompare: can't take the argument -1\n{USAGE}"));
    assert_eq!(run(&folder, &["1", "card", "-1", "other"]).end(), untaken);
}

/// The card that is opened must not be taken for standard input, whose descriptor is free.
#[test]
fn closed_standard_input() {
    let sheet = sheet_record(&leap_day(&[(7, 7)]));
    let folder = cards("cards", &sheet.repeat(900), &sheet);
    for arguments in [["1", "card", "1", "-"], ["1", "-", "1", "card"]] {
        let ended = Run::shell("exec \"$0\" \"$@\" <&-", "cardcompare", &arguments).within(&folder).end();
        assert_eq!(ended, Ended::new(2, "", "cardcompare: standard input: Bad file descriptor\n"), "{arguments:?}");
    }
}

#[test]
fn failures() {
    let [sheet, other] = [&[(7, 7)][..], &[(7, 8)]].map(|counts| sheet_record(&leap_day(counts)));
    let folder = cards("cards", &[sheet.clone(), sheet].concat(), &other);
    let fails = |what: &str| Ended::new(2, "", format!("cardcompare: {what}\n"));
    fails_as_it_should("cardcompare", &["2", "card", "1"], &folder, "other", "");
    runs_as_before("cardcompare", &["2", "card", "1"], &folder, "other");
    for (file, why) in [("nowhere", "No such file or directory"), (".", "Is a directory")] {
        assert_eq!(run(&folder, &["1", file, "1", "other"]).end(), fails(&format!("{file}: {why}")));
    }
    assert_eq!(run(&folder, &["1", "nowhere", "1", "no"]).end(), fails("nowhere: No such file or directory"));
    // What is refused is not written, so that no write can fail.
    assert_eq!(run(&folder, &["3", "card", "1", "other"]).output(full()).end().said, format!("cardcompare: card: {}", refusal_line(3, 17)));
    let both = || run(&folder, &["1", "card", "1", "other"]);
    assert_eq!(both().fault(Fault::error("read", 1, EIO)).end(), fails("card: Input/output error"));
    assert_eq!(both().fault(Fault::error("write", 1, ENOSPC)).end(), fails("standard output: No space left on device"));
    for fault in [Fault::interrupts("read").most(1), Fault::interrupts("write").most(1)] {
        assert_eq!(both().fault(fault).end(), both().end());
    }
    let wanted = fails("the name of the card: File name too long");
    assert_eq!(run(&self::folder("long"), &["1", &"a".repeat(5000), "1", "other"]).end(), wanted);
}

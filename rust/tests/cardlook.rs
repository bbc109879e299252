//! The program cardlook, which shows one record of a card: texts by the reference, statuses, the numbers that it takes, and how far it reads.

use crate::{reference, tools};
use reference::card::{is_blank, record, restore, HEADER, MARKS, RECORD};
use reference::masked::sums;
use reference::{encode, modulus, multiply, places, raise, sheet, WIDTHS};
use std::fs::{self, File};
use std::io::Seek;
use std::path::Path;
use tools::answers::{hint, refusal_line};
use tools::calls::{fails_as_it_should, runs_as_before, takes_arguments};
use tools::programs::{folder, folder_with, names, repository, Ended, Fault, Run, BATCH_SLOTS, EIO};
use tools::sheets::{five_slots, random_symbols, sheet, sheet_record, worn_sheet};
use tools::wear::{codeword, slot_of, spoiled, with_any_bytes, word_of_syndromes, worn, worn_card};
use tools::Chance;

const USAGE: &str = "usage: cardlook N [FILE]\n";

/// The rest of a line with these numbers.
fn spaced(numbers: &[u8]) -> String {
    match numbers.is_empty() {
        true => " none\n".to_owned(),
        false => numbers.iter().map(|number| format!(" {number}")).collect::<String>() + "\n",
    }
}

/// The syndromes of a whole record, where they can be told.
fn syndromes(slot: &[u8], marks: &[u8]) -> Option<[u8; 5]> {
    modulus(slot[0])?;
    sums(slot[0], &slot[HEADER..HEADER + places(slot[0])], marks).ok()
}

/// The lines of a day sheet.
fn day(symbols: &[u8]) -> String {
    let [year, month, day, pump] = <[u8; 4]>::try_from(&symbols[96..]).expect("four symbols behind the counts");
    let hour = |(hour, counts): (usize, &[u8])| format!("hour {hour}: {}\n", counts.iter().map(|&count| u32::from(count)).sum::<u32>());
    let hours: String = symbols[..96].chunks(4).enumerate().map(hour).collect();
    format!("date {}-{month:02}-{day:02}\npump {pump}\n{hours}", 2000 + u32::from(year))
}

/// What restoring makes of a record.
fn restoring(before: &[u8], changed: u8, after: &[u8]) -> String {
    let pairs = before[HEADER..].iter().zip(&after[HEADER..]).enumerate();
    let places: String = pairs.filter(|(_, (a, b))| a != b).map(|(place, (a, b))| format!("place {place}: {a} -> {b}\n")).collect();
    let symbols = sheet::read(after[0], &after[HEADER..HEADER + self::places(after[0])], sheet::SIZE);
    format!("accepted, wrong symbols changed: {changed}\n{places}{}", symbols.map_or(String::new(), |symbols| day(&symbols)))
}

/// The text of a slot with its number, and the status.
fn text(number: u64, slot: &[u8]) -> (i32, String) {
    let mut text = format!("record {number}\n");
    if is_blank(slot) {
        return (0, text + "blank\n");
    }
    if slot.len() == RECORD {
        let marks = &slot[2..2 + MARKS.min(slot[1].into())];
        text = text + &format!("width {}\nerasures{}", slot[0], spaced(marks));
        text += &syndromes(slot, marks).map_or(String::new(), |sums| format!("syndromes{}", spaced(&sums)));
    }
    match restore(slot) {
        Ok((changed, after)) => (0, text + &restoring(slot, changed, &after)),
        Err(refusal) => (1, text + "refused: " + &refusal_line(number, refusal)),
    }
}

/// The end of cardlook. It reads no further than the batch of the record, and knows the card's length only at its end.
fn looked(number: u64, card: &[u8], file: &str) -> Ended {
    let hint = hint("cardlook", file, card.len());
    let before = number as usize - 1;
    let slot = match card.chunks(RECORD).nth(before) {
        Some(slot) => slot,
        None => return Ended::new(2, "", format!("cardlook: {file}: {}{hint}", refusal_line(number, 17))),
    };
    let behind = card.len() - before / BATCH_SLOTS * BATCH_SLOTS * RECORD;
    let (status, text) = text(number, slot);
    Ended::new(status, text, if behind < BATCH_SLOTS * RECORD { hint } else { String::new() })
}

/// The end of cardlook on record `number` of the file `card` in the folder, which must be that of the reference.
fn look(folder: &Path, number: u64, card: &[u8]) -> Ended {
    let ended = Run::new("cardlook", &[&number.to_string(), "card"]).within(folder).end();
    assert_eq!(ended, looked(number, card, "card"), "record {number}: {:?}", String::from_utf8_lossy(&ended.out));
    ended
}

/// The text of one record, which must be that of the reference.
fn look_alone(record: &[u8]) -> String {
    String::from_utf8(look(&folder_with("alone", record), 1, record).out).expect("a text")
}

/// The examples of the page.
#[test]
fn the_card_that_ships() {
    let run = |number: &str| Run::new("cardlook", &[number, &repository("examples/two.card")]).end();
    let first = "record 1\nwidth 3\nerasures none\nsyndromes 1 1 1 1 1\naccepted, wrong symbols changed: 1\nplace 5: 1 -> 0\n";
    assert_eq!(run("1"), Ended::new(0, first, ""));
    let second = "record 2\nwidth 3\nerasures 0 1 2 3\nsyndromes 0 0 0 0 1\nrefused: 2 7 no codeword is near\n";
    assert_eq!(run("2"), Ended::new(1, second, ""));
    assert_eq!(run("3"), Ended::new(2, "", format!("cardlook: {}: 3 17 the card has no record of that number\n", repository("examples/two.card"))));
}

/// Each record of cards of worn records, blank slots and a short last piece. Most kinds of answers are among them.
#[test]
fn random_cards() {
    let mut chance = Chance::new();
    let mut said = String::new();
    for round in 0..16 {
        let card = worn_card(&mut chance, 40, [0, 1, 70, 138][round % 4]);
        let folder = folder_with("card", &card);
        for number in 1..=42 {
            said += &String::from_utf8(look(&folder, number, &card).out).expect("a text");
        }
    }
    for refusal in [1, 2, 3, 4, 6, 7, 8, 14] {
        assert!(said.matches(&format!(" {refusal} {}", tools::answers::words(refusal))).count() > 2, "refusal {refusal}");
    }
    for kind in ["blank\n", "changed: 0\n", "changed: 1\n", "changed: 2\n", "erasures none\nrefused", "width 4\n"] {
        assert!(said.matches(kind).count() > 2, "{kind}");
    }
}

/// Worn words of every width, with every number of erasures and wrong symbols.
#[test]
fn every_width() {
    let mut chance = Chance::new();
    for (width, marked) in WIDTHS.iter().flat_map(|&width| (0..=MARKS).map(move |marked| (width, marked))) {
        for wrong in 0..3 {
            let chosen = chance.places(marked + wrong, places(width));
            let (marks, wrong) = chosen.split_at(marked);
            let clean = codeword(&mut chance, width);
            let word = spoiled(&mut chance, width, &clean, wrong);
            let word = with_any_bytes(&mut chance, &word, marks);
            let text = look_alone(&record(width, &word, marks));
            assert!(text.starts_with(&format!("record 1\nwidth {width}\nerasures{}", spaced(marks))), "{text}");
        }
        look_alone(&worn(&mut chance, width));
    }
}

/// The erasures stand as in the record, the places that change in rising order; nothing else hangs on the order.
#[test]
fn erasures_in_any_order() {
    let mut chance = Chance::new();
    for width in WIDTHS {
        let mut marks = chance.places(3, places(width));
        let clean = codeword(&mut chance, width);
        let word = with_any_bytes(&mut chance, &spoiled(&mut Chance::new(), width, &clean, &marks), &marks);
        let mut rests = Vec::new();
        for turn in 0..6 {
            marks.swap(turn % 2, 1 + turn % 2);
            let text = look_alone(&record(width, &word, &marks));
            let rest = text.strip_prefix(&format!("record 1\nwidth {width}\nerasures{}", spaced(&marks))).expect(&text).to_owned();
            assert!(rest.contains("\naccepted, wrong symbols changed: 0\n"), "{rest}");
            rests.push(rest);
        }
        assert!(rests.iter().all(|rest| *rest == rests[0]), "{rests:?}");
    }
}

/// Five syndromes that are known beforehand; a byte at an erasure counts as 0.
#[test]
fn syndromes_that_are_known() {
    for (number, told) in [(0, "0 0 0 0 0"), (1, "1 0 0 0 0"), (8, "0 1 0 0 0"), (0o54321, "1 2 3 4 5"), (0o70000, "0 0 0 0 7")] {
        let text = look_alone(&record(3, &word_of_syndromes(3, number), &[]));
        assert!(text.contains(&format!("erasures none\nsyndromes {told}\n")), "{text}");
    }
    let mut word = encode(7, &[5; 127], 132).expect("data of the width");
    word[131] = 255;
    let text = look_alone(&record(7, &word, &[131]));
    // The word lacks what c_126 = 5 adds to each sum: 5 times a power of α.
    let lacks: Vec<u8> = (0..5).map(|k| multiply(7, 5, raise(7, 2, 126 * k))).collect();
    let tail = format!("syndromes{}accepted, wrong symbols changed: 0\nplace 131: 255 -> 5\n", spaced(&lacks));
    assert!(text.ends_with(&tail), "{text}");
}

/// Every refusal, and whether there are syndromes above it: only where width, erasures and symbols are such as have some.
#[test]
fn refused_records_of_every_kind() {
    let good = record(5, &codeword(&mut Chance::new(), 5), &[]);
    let with = |bytes: &[(usize, u8)]| {
        let mut record = good.clone();
        bytes.iter().for_each(|&(at, byte)| record[at] = byte);
        record
    };
    let marked = |count: u8| with(&[(1, count), (2, 9), (3, 8), (4, 7), (5, 0), (6, 35)]);
    let cases = [
        (1, false, with(&[(0, 0)])),
        (1, false, with(&[(0, 6)])),
        (1, false, [&[255; RECORD - 1][..], &[0]].concat()),
        (3, true, marked(6)),
        (3, true, marked(255)),
        (3, false, with(&[(1, 6)])),
        (3, false, record(4, &codeword(&mut Chance::new(), 4), &[1, 2, 3, 4])),
        (4, false, with(&[(1, 1), (2, 36)])),
        (5, false, with(&[(1, 2), (2, 9), (3, 9)])),
        (6, false, with(&[(HEADER + 35, 32)])),
        (7, true, with(&[(HEADER, good[HEADER] ^ 1), (HEADER + 1, good[HEADER + 1] ^ 1), (HEADER + 2, good[HEADER + 2] ^ 1)])),
        (8, true, with(&[(6, 254)])),
        (8, true, with(&[(HEADER + 36, 1)])),
        (8, true, with(&[(RECORD - 1, 1)])),
        (8, false, with(&[(RECORD - 1, 1), (HEADER, 32)])),
        (14, true, record(3, &[0; 12], &[2, 4, 5, 6, 8])),
    ];
    for (refusal, told, bytes) in cases {
        let text = look_alone(&bytes);
        assert!(text.ends_with(&format!("\nrefused: {}", refusal_line(1, refusal))), "{refusal}: {text}");
        assert_eq!(text.lines().count(), 4 + usize::from(told), "{refusal}: {text}");
        assert_eq!(text.lines().nth(3).expect("a line").starts_with("syndromes "), told, "{text}");
    }
    assert!(look_alone(&marked(255)).contains("\nerasures 9 8 7 0 35\nsyndromes "));
}

/// Day sheets, worn and whole, and records of width 7 that are none.
#[test]
fn day_sheets() {
    let whole = look_alone(&sheet(&[(0, 1), (3, 127), (4, 9), (92, 127), (93, 127), (94, 127), (95, 127)], [24, 2, 29], 5));
    let hours: String = (1..23).map(|hour| format!("hour {hour}: {}\n", if hour == 1 { 9 } else { 0 })).collect();
    let tail = "syndromes 0 0 0 0 0\naccepted, wrong symbols changed: 0\ndate 2024-02-29\npump 5\nhour 0: 128\n";
    assert_eq!(whole, format!("record 1\nwidth 7\nerasures none\n{tail}{hours}hour 23: 508\n"));
    for (date, shown) in [([0, 1, 1], "2000-01-01"), ([99, 12, 31], "2099-12-31"), ([100, 10, 9], "2100-10-09"), ([127, 9, 10], "2127-09-10")] {
        assert!(look_alone(&sheet(&[], date, 127)).contains(&format!("\ndate {shown}\npump 127\nhour 0: 0\n")));
    }
    let mut chance = Chance::new();
    for (wrong, marked) in [(0, 0), (1, 0), (2, 0), (0, 1), (1, 1), (1, 2), (0, 3), (0, 4), (3, 0), (2, 1)] {
        let symbols = random_symbols(&mut chance);
        let text = look_alone(&worn_sheet(&mut chance, &symbols, wrong, marked));
        assert_eq!(text.ends_with(&day(&symbols)), !text.contains("\nrefused: "), "{text}");
    }
    let mut data = [random_symbols(&mut chance), vec![0; 27]].concat();
    for (at, symbol) in [(126, 1), (97, 13), (98, 0)] {
        data[at] = symbol;
        let text = look_alone(&record(7, &encode(7, &data, 132).expect("data of the width"), &[]));
        assert!(text.ends_with("syndromes 0 0 0 0 0\naccepted, wrong symbols changed: 0\n"), "{text}");
    }
}

/// Records of several batches, and a short last piece; it is said of a card of 138 bytes a slot only where it was read to its end.
#[test]
fn the_edges_of_a_batch() {
    let mut chance = Chance::new();
    let slots: Vec<u8> = five_slots().concat().into_iter().chain(slot_of(&mut chance, 5)).chain(slot_of(&mut chance, 5)).collect();
    for bytes in [RECORD * 400, RECORD * 400 + 1, RECORD * 401, RECORD * 801 + 100, 138 * 402, 138 * 403, 138 * 808] {
        let card: Vec<u8> = slots.iter().copied().cycle().take(bytes).collect();
        let folder = folder_with("card", &card);
        for number in [1, 2, 399, 400, 401, 402, 403, 800, 801, 802, 803, 1201] {
            look(&folder, number, &card);
            let piped = Run::new("cardlook", &[&number.to_string(), "-"]).on(&card);
            assert_eq!(piped, looked(number, &card, "standard input"), "record {number} of {bytes} bytes");
        }
    }
}

/// A card of 138 bytes a slot is said to be one, behind all else.
#[test]
fn an_old_card() {
    let name = repository("examples/old/two.card");
    let card = fs::read(&name).expect("the card");
    for number in 1..5 {
        let ended = Run::new("cardlook", &[&number.to_string(), &name]).end();
        assert_eq!(ended, looked(number, &card, &name));
        assert!(ended.said.ends_with("an old card? see cardconvert\n"));
    }
}

/// No further than needed: the second batch is not read for a record of the first, and a card without end is no matter.
#[test]
fn what_is_read() {
    let card = five_slots().concat().repeat(200);
    let folder = folder_with("card", &card);
    for (number, reads) in [(1, 1), (400, 1), (401, 2), (800, 2), (801, 3), (1000, 3)] {
        let run = || Run::new("cardlook", &[&number.to_string(), "card"]).within(&folder);
        let wanted = looked(number, &card, "card");
        if number < 801 {
            assert_eq!(run().fault(Fault::error("read", reads + 1, EIO)).end_counting(), (wanted, Some(0)), "record {number}");
        }
        let ended = run().fault(Fault::error("read", reads, EIO)).end();
        assert_eq!(ended, Ended::new(2, "", "cardlook: card: Input/output error\n"), "record {number}");
    }
    let endless = |input: &mut dyn std::io::Write| while input.write_all(&card).is_ok() {};
    assert_eq!(Run::new("cardlook", &["777"]).fed(endless), looked(777, &card, "standard input"));
    let drops = |input: &mut dyn std::io::Write| card.chunks(61).for_each(|drop| drop_in(input, drop));
    assert_eq!(Run::new("cardlook", &["999"]).fed(drops), looked(999, &card, "standard input"));
    for fault in [Fault::interrupts("read").most(100), Fault::interrupts("write").most(1)] {
        assert_eq!(Run::new("cardlook", &["406", "card"]).within(&folder).fault(fault).end(), looked(406, &card, "card"));
    }
    assert!(fs::read(folder.join("card")).expect("the card") == card);
    assert_eq!(names(&folder), ["card"]);
}

fn drop_in(input: &mut dyn std::io::Write, drop: &[u8]) {
    input.write_all(drop).expect("all of the card is read");
}

/// Numbers beyond the card, which may be empty; zeros before a number.
#[test]
fn numbers_that_are_taken() {
    let card = [sheet_record(&random_symbols(&mut Chance::new())).repeat(6), vec![255; RECORD]].concat();
    let folder = folder_with("card", &card);
    for number in [8, 9, 10, 400, 401, 256 + 7, 65536 + 7, (1 << 32) + 7, 999_999_999_999_999] {
        look(&folder, number, &card);
    }
    for text in ["7", "07", "007", "000000000000007"] {
        let ended = Run::new("cardlook", &[text, "card"]).within(&folder).end();
        assert_eq!(ended, Ended::new(0, "record 7\nblank\n", ""), "{text}");
    }
    for number in [1, 2, 400, 401] {
        look(&folder_with("empty", &[]), number, &[]);
        look(&folder_with("bit", &[255]), number, &[255]);
    }
    assert_eq!(look(&folder_with("bit", &[255]), 1, &[255]).out, b"record 1\nrefused: 1 2 the length is not the right one\n");
}

/// Nothing is read, and the number is looked at before the file is.
#[test]
fn numbers_that_are_not_taken() {
    let folder = folder_with("card", &sheet_record(&random_symbols(&mut Chance::new())));
    let longer = "1".repeat(4000);
    let long = ["10000000000000000", "4294967296000000001", "18446744073709551617", "99999999999999999999", &longer];
    for text in ["0", "00", "+1", "1x", "x1", "", " 1", "1 ", "1.0", "1,", "0x1", "1e0", "１", "-", "card"].into_iter().chain(long) {
        let wanted = Ended::new(2, "", format!("cardlook: N is no number of a record: {text}\n{USAGE}"));
        for file in ["card", "nowhere"] {
            assert_eq!(Run::new("cardlook", &[text, file]).within(&folder).end(), wanted);
        }
        let mut file = File::open(folder.join("card")).expect("the card");
        assert_eq!(Run::new("cardlook", &[text]).input(file.try_clone().expect("the same place in the file")).end(), wanted);
        assert_eq!(file.stream_position().expect("a place"), 0, "it was read");
    }
}

#[test]
fn arguments() {
    takes_arguments("cardlook", &["1", "a"], USAGE);
    assert_eq!(Run::new("cardlook", &[]).end(), Ended::new(2, "", format!("cardlook: an argument is missing\n{USAGE}")));
    for (arguments, wrong) in [(&["-1", "a"][..], "-1"), (&["1", "-o", "a"], "-o"), (&["1", "a", ""], ""), (&["x", "a", "b"], "b")] {
        let wanted = Ended::new(2, "", format!("cardlook: can't take the argument {wrong}\n{USAGE}"));
        assert_eq!(Run::new("cardlook", arguments).end(), wanted, "{arguments:?}");
    }
}

#[test]
fn failures() {
    let folder = folder_with("failures", &five_slots().concat());
    for number in ["1", "2", "4"] {
        fails_as_it_should("cardlook", &[number], &folder, "card", "");
        runs_as_before("cardlook", &[number], &folder, "card");
    }
    // Of a record that is missing nothing is written, so that no write can fail.
    let missing = Run::new("cardlook", &["6", "card"]).within(&folder).output(tools::programs::full()).end();
    assert_eq!(missing, Ended::new(2, "", format!("cardlook: card: {}", refusal_line(6, 17))));
    let long = "a".repeat(5000);
    let wanted = Ended::new(2, "", "cardlook: the name of the card: File name too long\n");
    assert_eq!(Run::new("cardlook", &["1", &long]).within(&self::folder("long")).end(), wanted);
}

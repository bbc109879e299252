//! The packaged program cardconvert, on files, against the reference.

use crate::{reference, tools};
use reference::card::{self, record_of, size, MARKS, OLD_MARKS};
use reference::search::most_marks;
use reference::WIDTHS;
use std::fs;
use std::io::{Seek, SeekFrom};
use std::path::Path;
use tools::answers::words;
use tools::programs::{folder_with, repository, Ended, Fault, Run, BATCH_SLOTS};
use tools::wear::{codeword, slot_of};
use tools::Chance;

/// The slots that the program converts at once, in the second reading.
const COPY_SLOTS: usize = 200;

/// A conversion: its word, and the mark bytes of a record before and after.
#[derive(Clone, Copy, Debug)]
struct Way {
    word: &'static str,
    from: usize,
    to: usize,
}

const NEW: Way = Way { word: "to-new", from: OLD_MARKS, to: MARKS };
const OLD: Way = Way { word: "to-old", from: MARKS, to: OLD_MARKS };

impl Way {
    /// The conversion by the reference, into an output of the right length.
    fn reference(self, card: &[u8]) -> Result<Vec<u8>, u8> {
        let length = card.len() / size(self.from) * size(self.to);
        if self.to == MARKS {
            card::to_new(card, length)
        } else {
            card::to_old(card, length)
        }
    }

    /// How the program must end. No record is refused with an earlier question than the card is, so the first offending one is
    /// the first that, alone, is refused with the same.
    fn wanted(self, card: &[u8]) -> Ended {
        match self.reference(card) {
            Ok(converted) => Ended::new(0, converted, ""),
            Err(refusal) => {
                let mut slots = card.chunks(size(self.from));
                let number = 1 + slots.position(|slot| self.reference(slot).err() == Some(refusal)).expect("an offending record");
                let said = format!("cardconvert: nothing is written; the first record refused: {number} {refusal} {}\n", words(refusal));
                let rest = card.len() % size(self.from);
                let more = match refusal {
                    2 => format!("cardconvert: the card ends inside that record; bytes of it that are there: {rest}\n"),
                    _ => String::new(),
                };
                Ended::new(2, "", said + &more)
            }
        }
    }

    /// The program on a card in this folder.
    fn run(self, folder: &Path) -> Run {
        Run::new("cardconvert", &[self.word, "card"]).within(folder)
    }

    /// Converts the card, in a file, and compares; the file stays as it was.
    fn converts(self, name: &str, card: &[u8]) -> Ended {
        let folder = folder_with(name, card);
        let found = self.run(&folder).end();
        assert_eq!(found, self.wanted(card), "{self:?}, {} bytes", card.len());
        assert!(fs::read(folder.join("card")).expect("the file") == card);
        found
    }

    fn back(self) -> Way {
        if self.to == MARKS {
            OLD
        } else {
            NEW
        }
    }

    /// A record that is converted.
    fn good(self, chance: &mut Chance, width: u8) -> Vec<u8> {
        let marks: Vec<u8> = (0..chance.below(1 + most_marks(width).min(OLD_MARKS)) as u8).collect();
        record_of(self.from, width, &codeword(chance, width), &marks)
    }

    /// A card that is converted, with blank slots here and there.
    fn good_card(self, chance: &mut Chance, slots: usize) -> Vec<u8> {
        let slot = |chance: &mut Chance| match chance.below(8) {
            0 => vec![255; size(self.from)],
            n => self.good(chance, WIDTHS[n % WIDTHS.len()]),
        };
        (0..slots).flat_map(|_| slot(chance)).collect()
    }
}

#[test]
fn the_cards_that_ship() {
    let example = |name: &str| repository(&format!("examples/{name}.card"));
    for (way, from, to) in [(NEW, "old/two", "two"), (OLD, "two", "old/two")] {
        let wanted = fs::read(example(to)).expect("an example");
        assert_eq!(Run::new("cardconvert", &[way.word, &example(from)]).end(), Ended::new(0, wanted, ""));
    }
    for (way, name) in [(NEW, "old/worn"), (OLD, "worn")] {
        let card = fs::read(example(name)).expect("an example");
        assert_eq!(Run::new("cardconvert", &[way.word, &example(name)]).end(), way.wanted(&card), "{name}");
    }
}

/// The edges of a batch, there and back.
#[test]
fn there_and_back() {
    let mut chance = Chance::new();
    for way in [NEW, OLD] {
        for batch in [0, COPY_SLOTS, BATCH_SLOTS, 2 * BATCH_SLOTS] {
            for slots in [batch.saturating_sub(1), batch, batch + 1] {
                let card = way.good_card(&mut chance, slots);
                let there = way.converts("there", &card);
                assert_eq!((there.status, there.out.len()), (Some(0), slots * size(way.to)));
                assert!(way.back().converts("back", &there.out).out == card, "{slots} slots");
            }
        }
    }
}

#[test]
fn worn_cards() {
    let mut chance = Chance::new();
    for way in [NEW, OLD] {
        let (mut converted, mut refused) = (0, 0);
        for _ in 0..400 {
            let slots = chance.below(4);
            let mut card: Vec<u8> = (0..slots).flat_map(|_| slot_of(&mut chance, way.from)).collect();
            if chance.below(10) == 0 {
                card.truncate(card.len().saturating_sub(chance.below(size(way.from))));
            }
            match way.converts("worn", &card).status {
                Some(0) => converted += 1,
                _ => refused += 1,
            }
        }
        assert!(converted > 50 && refused > 50, "{converted} converted, {refused} refused");
    }
}

/// A refusal, and how a record is made that gets it.
type Spoiling = (u8, fn(&mut [u8]));

/// The refusals in the order of the questions, and how a record is made for which one is answered no.
const FAULTS: [Spoiling; 4] = [
    (1, |record| record[0] = 9),
    (3, |record| record[1] = 6),
    (8, |record| *record.last_mut().expect("a tail") = 1),
    (15, |record| record[1..7].copy_from_slice(&[5, 0, 1, 2, 3, 4])),
];

/// Faults in two records, in one batch and in two: the question that comes first refuses, also where its record comes later, and the number
/// is that of the first record that it refuses.
#[test]
fn the_first_offending_record() {
    let mut chance = Chance::new();
    let slots = 2 * BATCH_SLOTS + 3;
    for (way, faults) in [(NEW, &FAULTS[..3]), (OLD, &FAULTS[..])] {
        let width = 5;
        let clean: Vec<u8> = (0..slots).flat_map(|_| record_of(way.from, width, &codeword(&mut chance, width), &[])).collect();
        let ends = [0, 1, BATCH_SLOTS - 1, BATCH_SLOTS, 2 * BATCH_SLOTS - 1, 2 * BATCH_SLOTS, slots - 1];
        for (first, (refusal, spoil)) in faults.iter().enumerate() {
            for (_, spoil_other) in &faults[first..] {
                let (at, other) = (ends[chance.below(ends.len())], ends[chance.below(ends.len())]);
                let mut card = clean.clone();
                spoil_other(&mut card[other * size(way.from)..][..size(way.from)]);
                spoil(&mut card[at * size(way.from)..][..size(way.from)]);
                let said = way.converts("offending", &card).said;
                assert!(said.contains(&format!(" {refusal} {}\n", words(*refusal))), "{said}");
            }
        }
        for (refusal, spoil) in faults {
            for at in ends {
                let mut card = clean.clone();
                spoil(&mut card[at * size(way.from)..][..size(way.from)]);
                spoil(&mut card[(slots - 1) * size(way.from)..]);
                assert!(way.converts("offending", &card).said.contains(&format!("refused: {} {refusal} ", at + 1)));
            }
        }
    }
}

/// The length is asked before all else: every record here has a bad width.
#[test]
fn a_card_that_is_not_whole_records() {
    for way in [NEW, OLD] {
        let whole = size(way.from);
        for slots in [0, 1, BATCH_SLOTS - 1, BATCH_SLOTS, BATCH_SLOTS + 1] {
            for rest in [1, whole - 1] {
                let said = way.converts("pieces", &vec![9; slots * whole + rest]).said;
                assert!(said.contains(&format!("refused: {} 2 ", slots + 1)), "{said}");
            }
        }
    }
}

#[test]
fn blank_slots() {
    for way in [NEW, OLD] {
        for slots in [1, BATCH_SLOTS, BATCH_SLOTS + 1] {
            assert_eq!(way.converts("blank", &vec![255; slots * size(way.from)]).out, vec![255; slots * size(way.to)]);
        }
        assert_eq!(way.converts("blank", &vec![255; size(way.from) - 1]).status, Some(2));
    }
}

/// A million records and blank slots; then with the last one spoiled.
#[test]
fn a_large_card() {
    let mut chance = Chance::new();
    let rounds = 1000;
    for way in [NEW, OLD] {
        let several = way.good_card(&mut chance, 1000);
        let converted = way.reference(&several).expect("it is converted");
        let mut card = several.repeat(rounds);
        let folder = folder_with("large", &card);
        let ended = way.run(&folder).end();
        assert_eq!((ended.status, ended.out.len(), ended.said.as_str()), (Some(0), rounds * converted.len(), ""));
        assert!(ended.out.chunks(converted.len()).all(|part| part == converted));
        let last = card.len() - size(way.from);
        card[last] = 6;
        fs::write(folder.join("card"), &card).expect("the file");
        let said = "cardconvert: nothing is written; the first record refused: 1000000 1 the width is not 3, 4, 5 or 7\n";
        assert_eq!(way.run(&folder).end(), Ended::new(2, "", said));
    }
}

/// The program on a card that a command changes before a read. It notices, and has written so many slots until then.
fn changed(way: Way, card: &[u8], read: usize, command: &str, written: usize) {
    let folder = folder_with("changing", card);
    let ended = way.run(&folder).fault(Fault::before("read", read, command)).end();
    let converted = way.reference(card).expect("it is converted");
    let said = "cardconvert: card: the card changed while it was converted\n";
    assert_eq!(ended, Ended::new(2, &converted[..written * size(way.to)], said), "{way:?}, read {read}, {command}");
}

/// A card of 900 slots changes before each read of the second reading: reads 1 to 4 are the first reading, 5 to 9 have 200 slots each, the
/// last one 100, and read 10 finds the end.
#[test]
fn a_card_that_changes() {
    for way in [NEW, OLD] {
        let (card, bytes) = (way.good_card(&mut Chance::new(), 900), size(way.from));
        for read in 5..=9 {
            let before = (read - 5) * COPY_SLOTS;
            let spoil = format!("printf 6 | dd of=card bs=1 seek={} conv=notrunc 2>/dev/null", before * bytes);
            changed(way, &card, read, &format!("truncate -s {} card", before * bytes), before);
            changed(way, &card, read, &format!("truncate -s {} card", before * bytes + 1), before);
            changed(way, &card, read, "truncate -s 0 card", before);
            changed(way, &card, read, &spoil, before);
            changed(way, &card, read, "truncate -s -1 card", 800);
            changed(way, &card, read, "printf x >>card", 900);
        }
        changed(way, &card, 10, "printf x >>card", 900);
        changed(way, &[], 2, "printf x >>card", 0);
    }
}

/// The card may lie in standard input, and from any place of a file on.
#[test]
fn standard_input() {
    let mut chance = Chance::new();
    let card = OLD.good_card(&mut chance, 500);
    let folder = folder_with("input", &card);
    for arguments in [&["to-old"][..], &["to-old", "-"]] {
        let file = fs::File::open(folder.join("card")).expect("the card");
        assert_eq!(Run::new("cardconvert", arguments).input(file).end(), OLD.wanted(&card));
    }
    let mut file = fs::File::open(folder.join("card")).expect("the card");
    file.seek(SeekFrom::Start((3 * size(MARKS)) as u64)).expect("a place in the file");
    assert_eq!(Run::new("cardconvert", &["to-old"]).input(file).end(), OLD.wanted(&card[3 * size(MARKS)..]));
}

/// A pipe can be read once only. Nothing is written of it.
#[test]
fn a_pipe() {
    for (arguments, file) in [(&["to-new"][..], "standard input"), (&["to-new", "/dev/stdin"], "/dev/stdin")] {
        let ended = Run::new("cardconvert", arguments).on(&[255; size(OLD_MARKS)]);
        assert_eq!(ended, Ended::new(2, "", format!("cardconvert: {file}: Illegal seek\n")));
    }
}

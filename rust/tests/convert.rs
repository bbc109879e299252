//! Cards of the old edition made new, and new ones made old: every refusal, the order of the questions over the records, and the reference.

use crate::{reference, tools};
use reference::card::{self, record_of, restore_of, size, MARKS, OLD_MARKS, OLD_RECORD, RECORD};
use reference::search::most_marks;
use reference::{order, places, WIDTHS};
use tools::wear::{codeword, slot_of, worn_of};
use tools::{card_to_new, card_to_old, refusal, restore_record, Chance, Tally};
use xrs::Refusal::{self, ErasureCount, FourErasures, Length, Padding, Width};

/// A conversion, with the mark bytes of a record before and after.
#[derive(Clone, Copy, Debug)]
struct Way {
    from: usize,
    to: usize,
}

const NEW: Way = Way { from: OLD_MARKS, to: MARKS };
const OLD: Way = Way { from: MARKS, to: OLD_MARKS };

impl Way {
    /// The call on copies of the slices: its answer, and the output afterwards. Both must be those of the reference.
    fn call(self, card: &[u8], out: &[u8]) -> (Result<(), Refusal>, Vec<u8>) {
        let (convert, wanted) = match self.to {
            MARKS => (card_to_new as fn(&[u8], &[u8]) -> _, card::to_new(card, out.len())),
            _ => (card_to_old as fn(&[u8], &[u8]) -> _, card::to_old(card, out.len())),
        };
        let found = convert(card, out);
        let wanted = tools::wanted(wanted.map(|converted| ((), converted)), out);
        assert!(found == wanted, "{self:?}, {card:?}: {found:?}, not {wanted:?}");
        found
    }

    /// The answer for an output of the right length, and what it then holds.
    fn convert(self, card: &[u8]) -> (Result<(), Refusal>, Vec<u8>) {
        self.call(card, &vec![77; card.len() / size(self.from) * size(self.to)])
    }

    /// The same the other way.
    fn back(self) -> Way {
        Way { from: self.to, to: self.from }
    }

    /// A record that is converted, with no marks.
    fn clean(self, chance: &mut Chance, width: u8) -> Vec<u8> {
        record_of(self.from, width, &codeword(chance, width), &[])
    }

    /// A card of worn records and blank slots.
    fn worn_card(self, chance: &mut Chance, slots: usize) -> Vec<u8> {
        (0..slots).flat_map(|_| slot_of(chance, self.from)).collect()
    }
}

/// The record of a word has a mark byte more or less behind the used ones; all else moves.
#[test]
fn one_mark_byte_is_added_or_taken() {
    let mut chance = Chance::new();
    for width in WIDTHS {
        for count in 0..=OLD_MARKS.min(most_marks(width)) {
            let word = codeword(&mut chance, width);
            let marks = chance.places(count, places(width));
            let (old, new) = (record_of(OLD_MARKS, width, &word, &marks), record_of(MARKS, width, &word, &marks));
            assert_eq!([&old[..6], &[255], &old[6..]].concat(), new);
            assert_eq!(NEW.convert(&old), (Ok(()), new.clone()));
            assert_eq!(OLD.convert(&new), (Ok(()), old));
        }
    }
}

#[test]
fn worn_cards() {
    let mut chance = Chance::new();
    for (way, numbers) in [(NEW, vec![0, 1, 2, 3, 8]), (OLD, vec![0, 1, 2, 3, 8, 15])] {
        let mut tally = Tally::default();
        for _ in 0..4000 {
            let slots = chance.below(5);
            let mut card = way.worn_card(&mut chance, slots);
            let mut length = slots * size(way.to);
            match chance.below(20) {
                0 => card.truncate(card.len().saturating_sub(1 + chance.below(size(way.from)))),
                1 => length = (length + chance.below(3)).saturating_sub(1),
                _ => (),
            }
            tally.add(&way.call(&card, &vec![chance.below(256) as u8; length]).0);
        }
        tally.given(&numbers, 20);
    }
}

/// A question, and how a record is made for which it is answered no.
type Fault = (Refusal, fn(&mut [u8]));

/// The questions in their order. A record keeps the earlier faults where a later one is added.
const FAULTS: [Fault; 4] = [
    (Width, |record| record[0] = 9),
    (ErasureCount, |record| record[1] = 6),
    (Padding, |record| *record.last_mut().expect("a tail") = 1),
    (FourErasures, |record| record[1..7].copy_from_slice(&[5, 0, 1, 2, 3, 4])),
];

/// Two faults in any two records, or in one: the question that comes first is answered, wherever it is answered no.
#[test]
fn each_question_is_put_for_all_records_before_the_next() {
    let mut chance = Chance::new();
    for (way, faults) in [(NEW, &FAULTS[..3]), (OLD, &FAULTS[..])] {
        let mut card: Vec<u8> = (0..4).flat_map(|_| way.clean(&mut chance, 5)).collect();
        card[size(way.from)..2 * size(way.from)].fill(255);
        assert_eq!(way.convert(&card).0, Ok(()));
        for (first, (refused, spoil)) in faults.iter().enumerate() {
            for (_, spoil_later) in &faults[first..] {
                for (at, other) in [0, 2, 3].into_iter().flat_map(|at| [0, 2, 3].map(|other| (at, other))) {
                    let mut card = card.clone();
                    spoil_later(&mut card[other * size(way.from)..][..size(way.from)]);
                    spoil(&mut card[at * size(way.from)..][..size(way.from)]);
                    assert_eq!(way.convert(&card).0, Err(*refused), "records {} and {} of {way:?}", at + 1, other + 1);
                }
            }
        }
    }
}

#[test]
fn every_byte_of_a_record() {
    let mut chance = Chance::new();
    for way in [NEW, OLD] {
        for width in WIDTHS {
            let word = codeword(&mut chance, width);
            for count in [0, 1, way.from.min(most_marks(width))] {
                let marks = chance.places(count, places(width));
                let record = record_of(way.from, width, &word, &marks);
                for at in 0..record.len() {
                    let bytes = if at < 8 { 0..=255 } else { 254..=255 };
                    for byte in bytes {
                        let mut record = record.clone();
                        record[at] = byte;
                        let _ = way.convert(&record);
                    }
                }
            }
        }
    }
}

/// Marks that are no places or stand twice, symbols that are none, words that are not near a codeword: all are converted as they are.
#[test]
fn marks_and_symbols_are_not_asked_about() {
    let mut chance = Chance::new();
    for width in WIDTHS {
        let n = places(width) as u8;
        let all: [&[u8]; 5] = [&[n], &[255, 255], &[0, 0], &[3, n, 3], &[0, 1, 2, 2]];
        for marks in all.into_iter().filter(|marks| marks.len() <= most_marks(width)) {
            for word in [vec![order(width) as u8; n as usize], vec![255; n as usize], chance.symbols(n as usize, 256)] {
                let (old, new) = (record_of(OLD_MARKS, width, &word, marks), record_of(MARKS, width, &word, marks));
                assert_eq!(NEW.convert(&old), (Ok(()), new.clone()), "marks {marks:?} at width {width}");
                assert_eq!(OLD.convert(&new), (Ok(()), old), "marks {marks:?} at width {width}");
            }
        }
    }
}

/// At width 4 both editions have as many mark bytes as elsewhere, and at most three of them are used.
#[test]
fn marks_of_width_4() {
    for way in [NEW, OLD] {
        for count in 0..=way.from {
            let record = record_of(way.from, 4, &[0; 20], &[0, 1, 2, 3, 4][..count]);
            assert_eq!(way.convert(&record).0, if count <= 3 { Ok(()) } else { Err(ErasureCount) }, "{count} marks");
        }
    }
}

#[test]
fn blank_slots() {
    let mut chance = Chance::new();
    for way in [NEW, OLD] {
        let (blank, clean) = (vec![255; size(way.from)], way.clean(&mut chance, 3));
        for slots in 0..5 {
            assert_eq!(way.convert(&blank.repeat(slots)), (Ok(()), vec![255; slots * size(way.to)]));
        }
        let (answer, converted) = way.convert(&[&blank[..], &clean, &blank].concat());
        assert_eq!((answer, converted), (Ok(()), [vec![255; size(way.to)], way.convert(&clean).1, vec![255; size(way.to)]].concat()));
        // A slot is blank in all its bytes or a record of width 255.
        for at in 0..size(way.from) {
            let mut card = [&blank[..], &blank].concat();
            card[at] = 254;
            assert_eq!(way.convert(&card).0, Err(Width), "byte {at}");
        }
    }
}

/// The lengths are asked before all else: every record here has a bad width, number of marks and tail.
#[test]
fn lengths() {
    for way in [NEW, OLD] {
        let (whole, out) = (size(way.from), size(way.to));
        let bad = vec![9; 4 * whole + whole * out];
        assert_eq!(way.call(&[], &[]).0, Ok(()));
        assert_eq!(way.call(&bad[..whole], &vec![0; out]).0, Err(Width));
        for length in (0..3 * whole).filter(|length| length % whole != 0) {
            for slots in [length / whole, length / whole + 1] {
                assert_eq!(way.call(&bad[..length], &vec![0; slots * out]).0, Err(Length), "{length} bytes");
            }
        }
        for slots in 0..4 {
            let right = slots * out;
            for length in [0, right.saturating_sub(1), right + 1, slots * whole, right + out, right + 256, right + 65536] {
                if length != right {
                    assert_eq!(way.call(&bad[..slots * whole], &vec![0; length]).0, Err(Length), "{slots} slots into {length} bytes");
                }
            }
        }
        // As many bytes as are whole slots of both editions.
        assert_eq!(way.call(&bad[..whole * out], &vec![0; whole * out]).0, Err(Length));
        assert_eq!(way.call(&bad[..whole * out], &vec![0; out * out]).0, Err(Width));
    }
}

#[test]
fn there_and_back() {
    let mut chance = Chance::new();
    for way in [NEW, OLD] {
        let mut converted = 0;
        for _ in 0..1000 {
            let slots = chance.below(5);
            let card = way.worn_card(&mut chance, slots);
            if let (Ok(()), there) = way.convert(&card) {
                assert_eq!(way.back().convert(&there), (Ok(()), card));
                converted += (slots > 0) as usize;
            }
        }
        assert!(converted > 100, "{converted} of 1000 cards were converted by {way:?}");
    }
}

/// What restoring a record answered before request (e) it answers of the converted one, and the record it makes is the converted one.
#[test]
fn converted_records_are_restored_alike() {
    let mut chance = Chance::new();
    let mut tally = Tally::default();
    for round in 0..3000 {
        let old = worn_of(&mut chance, OLD_MARKS, WIDTHS[round % WIDTHS.len()]);
        let (converted, new) = NEW.convert(&old);
        if converted.is_err() {
            continue;
        }
        let (answer, after) = restore_record(&new);
        match refusal(restore_of(OLD_MARKS, &old, None)) {
            Ok((changed, restored)) => assert_eq!((answer, after), (Ok(changed), NEW.convert(&restored).1)),
            Err(refused) => assert_eq!(answer, Err(refused)),
        }
        tally.add(&answer);
    }
    tally.given(&[0, 4, 5, 6, 7], 0);
}

/// The example of document 01 is converted as a whole. The worn card has a short last piece, and records that are refused; each other slot,
/// alone, becomes the slot with its number on the new card.
#[test]
fn the_cards_that_ship() {
    let example = |name: &str| std::fs::read(format!("{}/../examples/{name}.card", env!("CARGO_MANIFEST_DIR"))).expect("an example");
    assert_eq!(NEW.convert(&example("old/two")), (Ok(()), example("two")));
    assert_eq!(OLD.convert(&example("two")), (Ok(()), example("old/two")));
    let (old, new) = (example("old/worn"), example("worn"));
    assert_eq!(NEW.convert(&old).0, Err(Length));
    let mut converted = 0;
    for (slot, wanted) in old.chunks_exact(OLD_RECORD).zip(new.chunks(RECORD)) {
        if let (Ok(()), found) = NEW.convert(slot) {
            assert_eq!(found, wanted);
            converted += 1;
        }
    }
    assert!(converted > 40, "{converted} slots were converted");
}

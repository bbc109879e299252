//! The sheets of controller and meter cupboard side by side, request (m): signs, totals, the chosen part, every refusal, and the reference.

use crate::{reference, tools};
use reference::card::{record, RECORD};
use reference::compare::{compare, part, QUARTERS};
use reference::sheet::SIZE;
use tools::sheets::{random_symbols, sheet_record, worn_sheet};
use tools::wear::{codeword, slot_of};
use tools::{compare_part, compare_sheets, other_numbers, refusal, Chance, Compared, Tally};
use xrs::Refusal::{self, RecordNumber, SameDay};
use xrs::Side;

/// The comparison, which must be that of the reference. The part handed back, also by itself, is one whole slot of the chosen card.
fn compared(controller: &[u8], number: u64, cupboard: &[u8], other_number: u64) -> Result<Compared, Refusal> {
    let found = compare_sheets(controller, number, cupboard, other_number);
    let wanted = refusal(compare((controller, number), (cupboard, other_number), QUARTERS)).map(|wanted| {
        let (chosen, number) = if wanted.cupboard_chosen { (Side::Cupboard, other_number) } else { (Side::Controller, number) };
        let start = (number as usize - 1) * RECORD;
        (wanted.signs, wanted.totals, chosen, start..start + RECORD)
    });
    assert_eq!(found, wanted, "records {number} and {other_number} of {} and {} bytes", controller.len(), cupboard.len());
    let alone = compare_part(controller, number, cupboard, other_number);
    assert_eq!(alone, wanted.map(|(_, _, chosen, bytes)| (chosen, bytes)), "the part of records {number} and {other_number}");
    let bytes = xrs::compare_part(controller, number, cupboard, other_number);
    assert_eq!(bytes, refusal(part((controller, number), (cupboard, other_number))), "its bytes");
    found
}

/// The same for cards of one record each.
fn compared_records(controller: &[u8], cupboard: &[u8]) -> Result<Compared, Refusal> {
    compared(controller, 1, cupboard, 1)
}

/// The symbols of a day like the one given, with some counts that are others.
fn like(chance: &mut Chance, symbols: &[u8]) -> Vec<u8> {
    let mut other = symbols.to_vec();
    for _ in 0..chance.below(60) {
        let count = &mut other[chance.below(QUARTERS)];
        *count = [0, 126, 127, count.saturating_sub(1), chance.below(128) as u8][chance.below(5)];
    }
    other
}

/// Cards of several slots, the numbers by chance, sheets of one day or nearly so.
#[test]
fn random_cards() {
    let mut chance = Chance::new();
    let mut tally = Tally::default();
    let mut chosen = [0; 2];
    for _ in 0..700 {
        let symbols = random_symbols(&mut chance);
        let [(controller, number), (cupboard, other_number)] = [0, 1].map(|_| {
            let mut day = like(&mut chance, &symbols);
            if chance.below(12) == 0 {
                day[QUARTERS + chance.below(4)] ^= 1;
            }
            let (wrong, marked) = (chance.below(3), chance.below(3));
            let own = match chance.below(9) {
                0 => slot_of(&mut chance, 5),
                _ if day[97] == 0 || day[97] > 12 || day[98] == 0 => sheet_record(&symbols),
                _ => worn_sheet(&mut chance, &day, wrong, marked),
            };
            let before = chance.below(3);
            let mut card: Vec<u8> = (0..before).flat_map(|_| slot_of(&mut chance, 5)).chain(own).collect();
            card.extend(&[9; RECORD][..chance.below(RECORD)]);
            let number = if chance.below(12) == 0 { chance.below(5) } else { before + 1 };
            (card, number as u64)
        });
        let answer = compared(&controller, number, &cupboard, other_number);
        if let Ok((signs, totals, side, _)) = &answer {
            chosen[(*side == Side::Cupboard) as usize] += 1;
            assert_eq!(signs.len(), QUARTERS);
            assert_eq!(totals.iter().map(|&total| total as usize).sum::<usize>(), QUARTERS);
        }
        tally.add(&answer);
    }
    tally.given(&[0, 7, 17, 20], 10);
    assert!(chosen.iter().all(|&count| count > 50), "both sides were chosen: {chosen:?}");
}

/// Each pair of counts from a few, 127 and 127 among them.
#[test]
fn signs() {
    let counts = [0, 1, 63, 126, 127];
    let mut day = vec![0; SIZE];
    day[96..].copy_from_slice(&[24, 2, 29, 5]);
    let (mut other, mut wanted) = (day.clone(), vec![0; QUARTERS]);
    for (at, (a, b)) in counts.into_iter().flat_map(|a| counts.map(|b| (a, b))).enumerate() {
        (day[at], other[at]) = (a, b);
        wanted[at] = if a == b { 0 } else { 1 + (a < b) as u8 };
    }
    let (signs, totals, side, _) = compared_records(&sheet_record(&day), &sheet_record(&other)).expect("sheets of one day");
    assert_eq!((signs, totals, side), (wanted, [76, 10, 10], Side::Controller));
    let same = compared_records(&sheet_record(&day), &sheet_record(&day));
    assert_eq!(same, Ok((vec![0; QUARTERS], [96, 0, 0], Side::Controller, 0..RECORD)));
}

/// The sheet with fewer places changed is chosen, on a tie the controller's; what stands at a mark is no change.
#[test]
fn the_chosen_sheet() {
    let mut chance = Chance::new();
    let symbols = random_symbols(&mut chance);
    for (wrong, marked) in [(0, 0), (0, 1), (0, 4), (1, 0), (1, 1), (1, 2), (2, 0)] {
        for (other_wrong, other_marked) in [(0, 0), (0, 3), (1, 0), (1, 2), (2, 0)] {
            let controller = worn_sheet(&mut chance, &symbols, wrong, marked);
            let cupboard = worn_sheet(&mut chance, &symbols, other_wrong, other_marked);
            let (_, _, side, _) = compared_records(&controller, &cupboard).expect("sheets of one day");
            let wanted = if other_wrong < wrong { Side::Cupboard } else { Side::Controller };
            assert_eq!(side, wanted, "{wrong} wrong beside {marked} marks, {other_wrong} beside {other_marked}");
        }
    }
}

/// The part is handed back as it was lent, also where both cards are one and the same.
#[test]
fn the_part_is_not_repaired() {
    let mut chance = Chance::new();
    let symbols = random_symbols(&mut chance);
    let worn = worn_sheet(&mut chance, &symbols, 1, 1);
    let worse = worn_sheet(&mut chance, &symbols, 2, 0);
    let card = [slot_of(&mut chance, 5), worse.clone(), worn.clone()].concat();
    for (number, other_number) in [(2, 3), (3, 2)] {
        let found = xrs::compare_sheets(&card, number, &card, other_number).expect("sheets of one day");
        assert_eq!(found.part, worn);
        assert_eq!(xrs::compare_part(&card, number, &card, other_number), Ok(&worn[..]));
        assert_eq!(found.chosen, if number == 3 { Side::Controller } else { Side::Cupboard });
    }
    assert_eq!(xrs::compare_sheets(&card, 2, &card, 2).expect("a sheet with itself").part, worse);
}

/// Records that are no day sheets, each with its refusal number; the last is a short piece.
fn refused_records() -> Vec<(u8, Vec<u8>)> {
    let mut chance = Chance::new();
    let good = sheet_record(&random_symbols(&mut chance));
    let with = |bytes: &[(usize, u8)]| {
        let mut record = good.clone();
        bytes.iter().for_each(|&(at, byte)| record[at] = byte);
        record
    };
    let symbols = |changes: &[(usize, u8)]| {
        let mut data = [random_symbols(&mut Chance::new()), vec![0; 27]].concat();
        changes.iter().for_each(|&(at, symbol)| data[at] = symbol);
        record(7, &reference::encode(7, &data, 132).expect("data of the width"), &[])
    };
    vec![
        (1, vec![255; RECORD]),
        (1, with(&[(0, 6)])),
        (3, with(&[(1, 6)])),
        (8, with(&[(2, 0)])),
        (4, with(&[(1, 1), (2, 132)])),
        (5, with(&[(1, 2), (2, 9), (3, 9)])),
        (6, with(&[(20, 128)])),
        (7, with(&[(7, good[7] ^ 1), (8, good[8] ^ 1), (9, good[9] ^ 1)])),
        (14, record(3, &[0; 12], &[2, 4, 5, 6, 8])),
        (11, record(3, &[0; 12], &[])),
        (11, record(4, &[0; 20], &[])),
        (11, record(5, &codeword(&mut chance, 5), &[])),
        (12, symbols(&[(97, 13), (120, 1)])),
        (13, symbols(&[(100, 1)])),
        (2, good[..RECORD - 1].to_vec()),
    ]
}

/// The controller's refusal comes first, over restoring and reading together, whatever the cupboard's is.
#[test]
fn the_refusals_of_the_records() {
    let good = sheet_record(&random_symbols(&mut Chance::new()));
    for (number, bad) in refused_records() {
        let refused = |answer: Result<Compared, Refusal>| answer.map(|_| ()).map_err(Refusal::number);
        assert_eq!(refused(compared_records(&bad, &good)), Err(number), "the controller's");
        assert_eq!(refused(compared_records(&good, &bad)), Err(number), "the cupboard's");
        for (_, other) in refused_records() {
            assert_eq!(refused(compared_records(&bad, &other)), Err(number), "both");
        }
    }
}

/// Year, month, day and pump must all be the same; a wrong symbol that hides one is undone before.
#[test]
fn the_same_pump_and_day() {
    let mut symbols = vec![3; SIZE];
    symbols[96..].copy_from_slice(&[24, 2, 28, 5]);
    let day = sheet_record(&symbols);
    for at in QUARTERS..SIZE {
        let mut other = symbols.clone();
        other[at] += 1;
        let mut other = sheet_record(&other);
        assert_eq!(compared_records(&day, &other), Err(SameDay), "c_{at}");
        assert_eq!(compared_records(&other, &day), Err(SameDay), "c_{at}");
        other[7 + 5 + at] -= 1;
        assert_eq!(compared_records(&day, &other), Err(SameDay), "c_{at} hidden");
        let mut hidden = day.clone();
        hidden[7 + 5 + at] += 1;
        assert!(compared_records(&day, &hidden).is_ok(), "c_{at} wrong");
    }
}

/// A number outside its card comes before all else.
#[test]
fn the_numbers() {
    let good = sheet_record(&random_symbols(&mut Chance::new()));
    let (_, short) = refused_records().pop().expect("a short piece");
    for card in [good.clone(), vec![255; RECORD], short, [&good[..], &good[..1]].concat(), vec![]] {
        let count = card.chunks(RECORD).count() as u64;
        for number in other_numbers(count) {
            for (other, other_number) in [(&good, 1), (&card, 1), (&card, number)] {
                assert_eq!(compared(&card, number, other, other_number), Err(RecordNumber), "record {number} of {count}");
                assert_eq!(compared(other, other_number, &card, number), Err(RecordNumber), "record {number} of {count}");
            }
        }
    }
}

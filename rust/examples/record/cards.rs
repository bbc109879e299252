//! Calls on records and cards.

use super::line::call;
use super::reference::card::{check, record_of, restore_of, to_new, to_old, MARKS, OLD_MARKS, OLD_RECORD, RECORD};
use super::reference::{compare, dock, walk, window};
use super::tools::sheets::{five_slots, random_symbols, sheet_record, worn_sheet};
use super::tools::wear::{slot_of, worn, worn_card};
use super::tools::Chance;

pub fn record(chance: &mut Chance) {
    for round in 0..80 {
        records(chance);
        if round % 3 == 0 {
            cards(chance);
            compared(chance);
        }
        if round % 5 == 0 {
            converted(chance);
            days(chance, round);
        }
    }
    for (slots, next) in [(18, 1), (18, 17), (3, 1), (3, 4), (3, 5), (2, 0), (0, 1)] {
        stepped(chance, slots, next);
    }
}

/// A record of 139 bytes, or now and then of another number; few of width 7, of which the reference has much to do.
fn some_record(chance: &mut Chance) -> Vec<u8> {
    let width = [3, 4, 5, 3, 4, 5, 3, 4, 5, 3, 7][chance.below(11)];
    let mut record = worn(chance, width);
    if chance.below(12) == 0 {
        record.resize([0, RECORD - 1, RECORD + 1][chance.below(3)], 0);
    }
    record
}

/// A record restored, alone and at a bay, with a reach every other time.
fn records(chance: &mut Chance) {
    let record = some_record(chance);
    let reach = (chance.below(2) == 0).then(|| [0, 0, 1, 1, 2, 3][chance.below(6)]);
    let restored = restore_of(MARKS, &record, reach);
    let line = call("restore_record").bytes("record", &record).reach(reach);
    line.answered(restored, |line, (changed, record)| line.number("value", changed).bytes("after", &record));

    let bay = chance.below(17) as u8 / 4;
    let some = chance.below(3) > 0;
    let left: Vec<u16> = (0..5).map(|_| if some { [0, 1, 100, 65_535][chance.below(4)] } else { 0 }).collect();
    let paid = dock::restore(bay, &left, &record, reach);
    let line = call("bay_restore").number("bay", bay).numbers("left", &left).bytes("record", &record).reach(reach);
    line.answered(paid, |line, (changed, left, record)| line.number("value", changed).numbers("after_left", &left).bytes("after", &record));
}

/// A card checked, and a record of it looked at.
fn cards(chance: &mut Chance) {
    let (slots, further) = (chance.below(4), [0, 0, 0, 1, 138][chance.below(5)]);
    let card = match chance.below(3) {
        0 => five_slots()[..slots].concat(),
        _ => worn_card(chance, slots, further),
    };
    call("check_card").bytes("card", &card).answered(Ok(check(&card)), |line, found| line.number("value", found.err().unwrap_or(0)));
    let number = chance.below(slots + 2) as u64;
    let length = [131, 133].get(chance.below(12)).copied().unwrap_or(walk::ROW);
    let seen = walk::look(&card, number, length);
    let line = call("look").bytes("card", &card).number("number", number).number("length", length as u64);
    line.answered(seen, |line, row| line.bytes("after", &row));
}

/// A step of a walk; every third time for a card of another length.
fn stepped(chance: &mut Chance, slots: usize, next: u64) {
    let card = match slots {
        18 => [five_slots(), five_slots(), five_slots(), five_slots()].concat()[2..].concat(),
        _ => worn_card(chance, slots, 0),
    };
    for length in [card.len() as u64, card.len() as u64 + 1] {
        let step = walk::step(length, next, &card);
        let line = call("walk_step").number("length", length).number("next", next).bytes("card", &card);
        line.answered(step, |line, (next, card)| line.number("value", next).bytes("after", &card));
    }
}

/// A card as one of the other edition, both ways.
fn converted(chance: &mut Chance) {
    let slots = chance.below(3);
    let mut old: Vec<u8> = (0..slots).flat_map(|_| slot_of(chance, OLD_MARKS)).collect();
    let mut new: Vec<u8> = (0..slots).flat_map(|_| slot_of(chance, MARKS)).collect();
    match chance.below(4) {
        0 => old.extend(record_of(OLD_MARKS, 3, &[0; 12], &[9, 9, 9, 9])),
        1 => old.push(0),
        _ => {}
    }
    new.extend(record_of(MARKS, 3, &[0; 12], &[0, 1, 2, 3, 4][..chance.below(6)]));
    let length = old.chunks(OLD_RECORD).len() * RECORD;
    let line = call("card_to_new").bytes("card", &old).number("length", length as u64);
    line.answered(to_new(&old, length), |line, card| line.bytes("after", &card));
    let length = new.len() / RECORD * OLD_RECORD + (chance.below(6) == 0) as usize;
    let line = call("card_to_old").bytes("card", &new).number("length", length as u64);
    line.answered(to_old(&new, length), |line, card| line.bytes("after", &card));
}

/// Two sheets of one day side by side, or nearly so.
fn compared(chance: &mut Chance) {
    let symbols = random_symbols(chance);
    let [controller, cupboard] = [0, 1].map(|_| {
        let mut day = symbols.clone();
        day[chance.below(96)] = chance.below(128) as u8;
        day[99] ^= (chance.below(6) == 0) as u8;
        let (wrong, marked) = (chance.below(3), chance.below(2));
        match chance.below(8) {
            0 => slot_of(chance, MARKS),
            1 => [vec![255; RECORD], sheet_record(&day)].concat(),
            _ => worn_sheet(chance, &day, wrong, marked),
        }
    });
    let [number, other] = [&controller, &cupboard].map(|card| match chance.below(8) {
        0 => chance.below(3) as u64,
        _ => (card.len() / RECORD) as u64,
    });
    let answer = compare::compare((&controller, number), (&cupboard, other), compare::QUARTERS);
    let line = call("compare_sheets").bytes("controller", &controller).number("controller_number", number);
    line.bytes("cupboard", &cupboard).number("cupboard_number", other).answered(answer, |line, found| {
        line.number("value", 1 + found.cupboard_chosen as u8).numbers("totals", &found.totals).bytes("after", &found.signs)
    });
    let answer = compare::part((&controller, number), (&cupboard, other));
    let line = call("compare_part").bytes("controller", &controller).number("controller_number", number);
    line.bytes("cupboard", &cupboard).number("cupboard_number", other).answered(answer, |line, part| line.bytes("after", part));
}

/// The starts on a card in a window, as places of the report with what stands there, where that is not 0; and its day sheets.
fn days(chance: &mut Chance, round: usize) {
    let mut slots = five_slots().to_vec();
    for _ in 0..2 {
        let mut symbols = random_symbols(chance);
        symbols[99] = [0, 127][chance.below(2)];
        slots.push(worn_sheet(chance, &symbols, 1, 1));
        slots.push(some_record(chance));
    }
    let mut card = slots[..round / 5 % 10].concat();
    card.truncate(card.len() - card.len().min([0, 0, 50][chance.below(3)]));
    let (first, end) = [(0, 96), (24, 72), (95, 96), (30, 30), (31, 30), (90, 97), (0, 1)][chance.below(7)];
    let report = window::report(&card, first, end, window::REPORT);
    let line = call("window").bytes("card", &card).number("first", first).number("end", end);
    line.answered(report, |line, report| {
        let told = (0u64..).zip(report).filter(|&(_, number)| number > 0).flat_map(|(place, number)| [place, number]);
        line.numbers("values", &told.collect::<Vec<u64>>())
    });
    let mut sheets: Vec<u8> = vec![];
    for (number, piece) in (1u8..).zip(card.chunks(RECORD)) {
        if let Ok((_, symbols)) = compare::read(piece) {
            sheets.push(number);
            sheets.extend(symbols);
        }
    }
    call("sheets").bytes("card", &card).answered(Ok(sheets), |line, sheets| line.bytes("after", &sheets));
}

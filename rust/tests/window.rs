//! The starts in a window of the day, request (n): dates, edges, limits, and the reference.

use crate::{reference, tools};
use reference::card::{record, RECORD};
use reference::compare::QUARTERS;
use reference::window::{report, MOST, PUMPS, REPORT};
use tools::sheets::{five_slots, random_symbols, sheet, sheet_record, worn_sheet};
use tools::wear::{codeword, slot_of};
use tools::{refusal, window, Chance};
use xrs::{Pump, Refusal, Report};

const WHOLE_DAY: (u8, u8) = (0, QUARTERS as u8);

/// The numbers of a report as the call gives them.
fn numbers(report: &Report) -> Vec<u64> {
    let row = |pump: &Pump| {
        let [year, month, day] = pump.date.map(u64::from);
        [pump.sheets, pump.sum, pump.full, pump.highest as u64, year, month, day, pump.quotient, pump.remainder]
    };
    report.pumps.iter().flat_map(row).chain([report.refused, report.blank, report.further as u64]).collect()
}

/// Fails unless the report is that of the reference, all records looked at are in it, and the means are those of the sums.
fn compare(card: &[u8], (first, end): (u8, u8), found: &Result<Report, Refusal>) {
    assert_eq!(found.as_ref().map(numbers), refusal(report(card, first, end, REPORT)).as_ref().cloned(), "from {first} to {end}");
    let report = match found {
        Ok(report) => report,
        Err(_) => return,
    };
    let sheets: u64 = report.pumps.iter().map(|pump| pump.sheets).sum();
    assert_eq!(sheets + report.refused + report.blank, card.chunks(RECORD).len().min(MOST) as u64);
    for pump in &report.pumps {
        assert_eq!(pump.quotient * pump.sheets + pump.remainder, pump.sum);
        assert!(pump.remainder < pump.sheets || *pump == Pump::default(), "{pump:?}");
    }
}

/// The report of a card, compared.
fn reported(card: &[u8], first: u8, end: u8) -> Report {
    let found = window(card, first, end);
    compare(card, (first, end), &found);
    found.expect("a window")
}

/// Sheets of few pumps and days, worn ones, records that are none, blank slots and short last pieces.
#[test]
fn random_cards() {
    let mut chance = Chance::new();
    for round in 0..60 {
        let mut slot = || match chance.below(10) {
            0 | 1 => slot_of(&mut chance, 5),
            2 => record(7, &codeword(&mut chance, 7), &[]),
            _ => {
                let mut symbols = random_symbols(&mut chance);
                let high = [1, 4, 128][chance.below(3)];
                symbols[..QUARTERS].iter_mut().for_each(|count| *count = chance.below(high) as u8);
                let few = [chance.below(3), 1 + chance.below(2), 1 + chance.below(3), chance.below(3)];
                symbols[96..].copy_from_slice(&few.map(|symbol| symbol as u8));
                let (wrong, marked) = (chance.below(3), chance.below(4));
                worn_sheet(&mut chance, &symbols, wrong, marked)
            }
        };
        let mut card: Vec<u8> = (0..1 + round % 40).flat_map(|_| slot()).collect();
        card.truncate(card.len() - [0, 0, chance.below(RECORD)][chance.below(3)]);
        let first = chance.below(QUARTERS);
        let end = first + 1 + chance.below(QUARTERS - first);
        let _ = reported(&card, first as u8, end as u8);
        let _ = reported(&card, WHOLE_DAY.0, WHOLE_DAY.1);
    }
}

/// Every window of one day, and every pair of numbers that is none.
#[test]
fn every_window() {
    let mut symbols = random_symbols(&mut Chance::new());
    (symbols[0], symbols[50], symbols[95]) = (127, 127, 127);
    let card = sheet_record(&symbols);
    for first in 0..=255 {
        for end in 0..=255 {
            let answer = xrs::window(&card, first, end);
            if first >= end || end > 96 {
                assert_eq!(answer, Err(Refusal::Window), "from {first} to {end}");
                continue;
            }
            let counts = &symbols[first as usize..end as usize];
            let sum = counts.iter().map(|&count| count as u64).sum();
            let wanted = Pump {
                sheets: 1,
                sum,
                full: counts.iter().filter(|&&count| count == 127).count() as u64,
                highest: *counts.iter().max().expect("a quarter hour"),
                date: [symbols[96], symbols[97], symbols[98]],
                quotient: sum,
                remainder: 0,
            };
            assert_eq!(answer.expect("a window").pumps[symbols[99] as usize], wanted, "from {first} to {end}");
        }
    }
}

/// A count of 127 in one quarter hour, and windows that begin or end at it.
#[test]
fn counts_at_the_edges_of_the_window() {
    for quarter in 0..QUARTERS as u8 {
        let card = sheet(&[(quarter as usize, 127)], [24, 2, 29], 5);
        for (first, end) in [(quarter, quarter + 1), (0, quarter + 1), (quarter, 96), (0, quarter), (quarter + 1, 96)] {
            if first < end {
                let pump = xrs::window(&card, first, end).expect("a window").pumps[5];
                let inside = (first..end).contains(&quarter) as u8;
                let found = (pump.sheets, pump.sum, pump.full, pump.highest, pump.date);
                assert_eq!(found, (1, 127 * inside as u64, inside as u64, 127 * inside, [24, 2, 29]), "{quarter} from {first} to {end}");
            }
        }
    }
}

#[test]
fn every_pump() {
    let card: Vec<u8> = (0..PUMPS as u8).flat_map(|pump| sheet(&[(0, pump)], [pump, 1, 1], pump)).collect();
    let report = reported(&card, 0, 1);
    for (number, pump) in (0..).zip(&report.pumps) {
        assert_eq!((pump.sheets, pump.sum, pump.highest, pump.date), (1, number as u64, number, [number, 1, 1]));
    }
    let nothing = Report { pumps: [Pump::default(); PUMPS], refused: 0, blank: 0, further: false };
    assert_eq!(reported(&[], 0, 96), nothing);
    assert_eq!(reported(&[255; 3 * RECORD], 5, 6), Report { blank: 3, ..nothing });
    assert_eq!(reported(&[255; RECORD - 1], 5, 6), Report { refused: 1, ..nothing });
}

/// Two sheets of one pump and day both count.
#[test]
fn two_sheets_of_one_pump_and_day() {
    let card = [sheet(&[(3, 9)], [24, 2, 29], 5), sheet(&[(3, 8), (4, 4)], [24, 2, 29], 5)].concat();
    let pump = reported(&card, 3, 5).pumps[5];
    assert_eq!(pump, Pump { sheets: 2, sum: 21, full: 0, highest: 9, date: [24, 2, 29], quotient: 10, remainder: 1 });
}

/// The highest count has its earliest date by the calendar, in whatever order the sheets stand on the card; so has a highest count of 0.
#[test]
fn the_earliest_date() {
    let days = [[1, 12, 31], [2, 1, 31], [2, 2, 1], [2, 2, 28], [3, 1, 1]];
    for highest in [0, 1, 127] {
        for from in 0..days.len() {
            // Those before `from` have a lower count, where there is one, or none in the window.
            let counts = |at: usize| if at < from { [(20, 0), (30, 127)] } else { [(20, highest), (30, 127)] };
            let sheets: Vec<Vec<u8>> = days.into_iter().enumerate().map(|(at, day)| sheet(&counts(at), day, 9)).collect();
            let wanted = if highest == 0 { days[0] } else { days[from] };
            for turn in 0..days.len() {
                for order in [[0, 1, 2, 3, 4], [4, 3, 2, 1, 0], [2, 0, 4, 1, 3]] {
                    let card: Vec<u8> = order.into_iter().flat_map(|at| sheets[(at + turn) % days.len()].clone()).collect();
                    let pump = xrs::window(&card, 20, 30).expect("a window").pumps[9];
                    assert_eq!((pump.highest, pump.date), (highest, wanted), "highest {highest} from {from} on");
                }
            }
        }
    }
}

/// Records that are restored are read; others, and those that are no day sheets, are refused and add nothing.
#[test]
fn refused_and_blank_records() {
    let mut chance = Chance::new();
    let good = sheet(&[(0, 3)], [24, 2, 29], 5);
    let spoiled = |changes: &[usize]| {
        let mut bytes = good.clone();
        changes.iter().for_each(|&at| bytes[at] ^= 1);
        bytes
    };
    let mut no_date = [vec![1; 96], vec![24, 2, 30, 5], vec![0; 27]].concat();
    let impossible = record(7, &reference::encode(7, &no_date, 132).expect("data of the width"), &[]);
    (no_date[98], no_date[126]) = (29, 1);
    let unused = record(7, &reference::encode(7, &no_date, 132).expect("data of the width"), &[]);
    let slots = [
        good.clone(),
        spoiled(&[7]),
        spoiled(&[7, 138]),
        spoiled(&[7, 8, 9]),
        spoiled(&[0]),
        impossible,
        unused,
        record(5, &codeword(&mut chance, 5), &[]),
        vec![255; RECORD],
        good[..RECORD - 1].to_vec(),
    ];
    let report = reported(&slots.concat(), 0, 96);
    assert_eq!((report.pumps[5].sheets, report.pumps[5].sum, report.refused, report.blank), (3, 9, 6, 1));
}

/// 1,000,000 records are looked at, blank ones included, and a further one, even a piece of one, is only noticed.
#[test]
fn cards_at_the_limit() {
    let turns = five_slots();
    let mut card = turns.concat().repeat(MOST / turns.len());
    assert_eq!(card.len(), MOST * RECORD);
    let exact = xrs::window(&card, 0, 96);
    compare(&card, WHOLE_DAY, &exact);
    let exact = exact.expect("a window");
    assert_eq!((exact.pumps[0].sheets, exact.pumps[127].sheets, exact.refused, exact.blank), (400_000, 200_000, 200_000, 200_000));
    assert!(!exact.further);
    let fewer = xrs::window(&card[..card.len() - 1], 0, 96).expect("a window");
    assert_eq!((fewer.pumps[0].sheets, fewer.refused, fewer.further), (399_999, 200_001, false));
    let further = Report { further: true, ..exact };
    for (from, length) in [(0, RECORD), (1, RECORD), (3, RECORD), (0, 1)] {
        card.truncate(MOST * RECORD);
        card.extend(&turns[from][..length]);
        assert_eq!(xrs::window(&card, 0, 96).expect("a window"), further);
    }
}

/// The largest sum that a card can have: above 32 bits.
#[test]
fn the_largest_sum() {
    let full: Vec<(usize, u8)> = (0..QUARTERS).map(|quarter| (quarter, 127)).collect();
    let mut card = sheet(&full, [127, 12, 31], 127).repeat(MOST);
    let whole = xrs::window(&card, 0, 96);
    compare(&card, WHOLE_DAY, &whole);
    let (sheets, sum) = (MOST as u64, 12_192_000_000);
    let wanted = Pump { sheets, sum, full: 96_000_000, highest: 127, date: [127, 12, 31], quotient: 12_192, remainder: 0 };
    assert_eq!(whole.expect("a window").pumps[127], wanted);
    card[..RECORD].copy_from_slice(&sheet(&full[1..], [127, 12, 30], 127));
    let wanted = Pump { sum: sum - 127, full: 95_999_999, date: [127, 12, 30], quotient: 12_191, remainder: 999_873, ..wanted };
    assert_eq!(xrs::window(&card, 0, 96).expect("a window").pumps[127], wanted);
}

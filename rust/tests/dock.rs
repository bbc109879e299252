//! The bays of a dock and their rewrites, request (l): runs of calls with their history, every refusal, and the reference.

use crate::{reference, tools};
use reference::card::{record, RECORD};
use reference::dock::{self, BAYS, CHARGE};
use tools::wear::{slot_of, spoiled};
use tools::{bay_restore, restore_record, wanted, Chance, Tally};
use xrs::Counts;
use xrs::Refusal::{self, Bay, Correctable, Length, Padding, Reach, Rewrite, Symbol, Unique, Width};

/// The five counts as the call is lent them.
fn row(left: Counts) -> Vec<u16> {
    [&left.own[..], &[left.common]].concat()
}

fn counts(row: &[u16]) -> Counts {
    Counts { own: row[..BAYS].try_into().expect("four bays"), common: row[BAYS] }
}

/// Five equal counts.
fn all(count: u16) -> Counts {
    Counts { own: [count; BAYS], common: count }
}

fn charged() -> Counts {
    let mut left = all(7);
    assert_eq!(left.charge(), Ok(()));
    left
}

/// A bay's call, which must be as by the reference: its answer, the counts and the record afterwards.
fn call(bay: u8, left: Counts, bytes: &[u8], reach: Option<u8>) -> (Result<u8, Refusal>, Counts, Vec<u8>) {
    let found = bay_restore(bay, left, bytes, reach);
    let answer = dock::restore(bay, &row(left), bytes, reach);
    let wanted = wanted(answer.map(|(changed, left, after)| ((changed, counts(&left)), after)), bytes);
    assert!(found == wanted, "bay {bay}, {left:?}, reach {reach:?}, {bytes:?}: {found:?}, not {wanted:?}");
    let (answer, after) = found;
    (answer.map(|(changed, _)| changed), answer.map_or(left, |(_, left)| left), after)
}

/// Records of one wrong symbol, each a rewrite.
fn wrong() -> Vec<u8> {
    record(3, &[5, 0, 0, 0, 0, 0, 0, 0, 0, 0, 0, 0], &[])
}

#[test]
fn a_new_charge() {
    for mut left in [all(0), all(99), all(u16::MAX), Counts { own: [1, 2, 3, 4], common: 5 }] {
        assert_eq!(left.charge(), Ok(()));
        assert_eq!(row(left), CHARGE);
    }
}

/// What is known of a dock from its history since the last charge.
struct History {
    left: Counts,
    used: [u32; BAYS],
}

impl History {
    fn new() -> History {
        History { left: charged(), used: [0; BAYS] }
    }

    /// A bay's call with the counts that the one before gave back. Rewrites used, by the records that came back with another byte, and
    /// those left make 1,000, and a bay that had fewer than 100 is not denied.
    fn call(&mut self, bay: u8, bytes: &[u8], reach: Option<u8>) -> Result<u8, Refusal> {
        let (answer, left, after) = call(bay, self.left, bytes, reach);
        self.left = left;
        if after != bytes {
            self.used[bay as usize] += 1;
        }
        let all_left: u32 = row(left).into_iter().map(u32::from).sum();
        assert_eq!(self.used.iter().sum::<u32>() + all_left, 1000, "{:?} used, {left:?} left", self.used);
        assert!(answer != Err(Rewrite) || self.used[bay as usize] >= 100, "bay {bay} had {:?}", self.used);
        answer
    }
}

/// Runs of 3,000 calls each since a charge, with all bays alike and with one that calls more often than the others.
#[test]
fn random_runs() {
    let mut chance = Chance::new();
    let mut slots: Vec<Vec<u8>> = (0..60).map(|_| slot_of(&mut chance, 5)).collect();
    slots.extend((0..40).map(|round| record(3, &spoiled(&mut chance, 3, &[0; 12], &[round % 12]), &[])));
    slots.extend([vec![255; RECORD], wrong()[1..].to_vec(), vec![]]);
    for greedy in 0..4 {
        let (mut history, mut tally) = (History::new(), Tally::default());
        for _ in 0..3000 {
            let bay = match chance.below(40) {
                0 => [4, 5, 128, 255][chance.below(4)],
                n if n < 10 * greedy => 1,
                _ => chance.below(BAYS) as u8,
            };
            let reach = [None, None, None, Some(0), Some(1), Some(2), Some(255)][chance.below(7)];
            tally.add(&history.call(bay, &slots[chance.below(slots.len())], reach));
        }
        tally.given(&[0, 1, 2, 7, 8, 16, 18, 19], 10);
        assert!(history.used.iter().sum::<u32>() > 900, "{:?}", history.used);
        assert!(history.left.common == 0, "{:?}", history.left);
    }
}

/// One bay takes its own, then the common ones; the others still have theirs, to the last.
#[test]
fn all_bays_to_their_last() {
    for first in 0..BAYS as u8 {
        let mut history = History::new();
        for number in 1..=700 {
            assert_eq!(history.call(first, &wrong(), None), Ok(1));
            let mut own = [100; BAYS];
            own[first as usize] -= number.min(100);
            assert_eq!(history.left, Counts { own, common: 700 - number.max(100) }, "rewrite {number} of bay {first}");
        }
        assert_eq!(history.call(first, &wrong(), None), Err(Rewrite));
        for bay in (0..BAYS as u8).filter(|&bay| bay != first) {
            (0..100).for_each(|_| assert_eq!(history.call(bay, &wrong(), Some(1)), Ok(1)));
            assert_eq!(history.call(bay, &wrong(), Some(2)), Err(Rewrite));
        }
        assert_eq!(history.left, all(0));
        assert_eq!(history.left.charge(), Ok(()));
        assert_eq!(history.left, charged());
    }
}

/// A record that would not change, or is refused, is treated as without bays where no rewrite is left; every other is denied, and stays.
#[test]
fn records_with_no_rewrite_left() {
    let mut chance = Chance::new();
    let mut tally = Tally::default();
    let slots: Vec<Vec<u8>> = (0..300).map(|_| slot_of(&mut chance, 5)).collect();
    let restored: Vec<Vec<u8>> = slots.iter().map(|slot| restore_record(slot).1).collect();
    for bytes in slots.into_iter().chain(restored) {
        let (answer, after) = restore_record(&bytes);
        let wanted = if answer.is_ok() && after != bytes { Err(Rewrite) } else { answer };
        for left in [all(0), Counts { own: [0, 9, 9, 9], common: 0 }] {
            assert_eq!(call(0, left, &bytes, None), (wanted, left, bytes.clone()));
        }
        let (paid, left, rewritten) = call(3, Counts { own: [0, 0, 0, 1], common: 0 }, &bytes, None);
        assert_eq!((paid, &rewritten), (answer, &after));
        assert_eq!(left == all(0), after != bytes, "{bytes:?}");
        tally.add(&wanted);
    }
    tally.given(&[0, 1, 7, 8, 19], 10);
}

/// What costs is decided by all bytes of the record: a codeword with marks is rewritten, though no place is changed.
#[test]
fn a_codeword_with_marks_costs_one() {
    let marked = record(3, &[0; 12], &[4]);
    let clean = record(3, &[0; 12], &[]);
    assert_eq!(call(1, all(0), &marked, None).0, Err(Rewrite));
    assert_eq!(call(1, charged(), &marked, None), (Ok(0), Counts { own: [100, 99, 100, 100], common: 600 }, clean.clone()));
    assert_eq!(call(1, charged(), &clean, None), (Ok(0), charged(), clean));
}

/// Counts may have any size; the bay's own is used before the common one.
#[test]
fn any_counts() {
    let mut chance = Chance::new();
    for _ in 0..2000 {
        let mut count = || [0, 0, 1, 2, 100, 601, 32768, u16::MAX, chance.below(65536) as u16][chance.below(9)];
        let left = Counts { own: std::array::from_fn(|_| count()), common: count() };
        let bay = chance.below(BAYS);
        let (answer, after, _) = call(bay as u8, left, &wrong(), None);
        let mut wanted = left;
        if left.own[bay] > 0 {
            wanted.own[bay] -= 1;
        } else {
            wanted.common = left.common.saturating_sub(1);
        }
        assert_eq!((answer.is_ok(), after), (left.own[bay] > 0 || left.common > 0, wanted), "bay {bay} of {left:?}");
    }
}

/// Each record has all the faults that come later, and no rewrite is left.
#[test]
fn the_order_of_the_questions() {
    let mut bytes = record(6, &[1, 1, 1, 0, 0, 0, 0, 0, 8, 0, 0, 0], &[]);
    bytes[RECORD - 1] = 1;
    for bay in 4..=255 {
        assert_eq!(call(bay, all(0), &bytes[1..], Some(255)).0, Err(Bay));
        assert_eq!(call(bay, charged(), &wrong(), None).0, Err(Bay));
    }
    for length in (0..RECORD).chain([RECORD + 1, RECORD + 256]) {
        let other: Vec<u8> = bytes.iter().cycle().take(length).copied().collect();
        assert_eq!(call(0, all(0), &other, Some(255)).0, Err(Length), "{length} bytes");
    }
    assert_eq!(call(0, all(0), &bytes, Some(255)).0, Err(Width));
    bytes[0] = 3;
    assert_eq!(call(0, all(0), &bytes, Some(255)).0, Err(Padding));
    bytes[RECORD - 1] = 0;
    assert_eq!(call(0, all(0), &bytes, Some(255)).0, Err(Symbol));
    bytes[7 + 8] = 0;
    assert_eq!(call(0, all(0), &bytes, Some(3)).0, Err(Reach));
    assert_eq!(call(0, all(0), &bytes, Some(2)).0, Err(Correctable));
    assert_eq!(call(0, all(0), &record(3, &[0; 12], &[2, 4, 5, 6, 8]), Some(0)).0, Err(Unique));
    bytes[8] = 0;
    assert_eq!(call(0, all(0), &bytes, None).0, Err(Rewrite));
    assert_eq!(call(0, all(0), &bytes, Some(1)).0, Err(Correctable), "no rewrite would follow");
}

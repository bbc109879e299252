//! How the programs must end, by the reference.

use super::programs::{Ended, BATCH_SLOTS};
use crate::reference::card::{check, is_blank, judge, list, restore_of, to_old, MARKS, OLD_RECORD, RECORD};
use crate::reference::window::{report, PUMPS, REPORT, ROW};

/// The reach that no record exceeds.
pub const LONGEST: u8 = 2;

/// The line for a card that looks like one of the old edition, where a card of so many bytes does.
pub fn hint(name: &str, file: &str, bytes: usize) -> String {
    match bytes % RECORD != 0 && bytes % OLD_RECORD == 0 {
        true => format!("{name}: {file}: no whole number of slots of 139 bytes, but one of 138: an old card? see cardconvert\n"),
        false => String::new(),
    }
}

/// The line that names a refused record.
pub fn refusal_line(number: u64, refusal: u8) -> String {
    format!("{number} {refusal} {}\n", words(refusal))
}

/// The end of cardlist.
pub fn listed(card: &[u8], file: &str) -> Ended {
    Ended::new(0, list(card), hint("cardlist", file, card.len()))
}

/// The words for the refusals that a record, a day sheet, or a card that is converted, can get.
pub fn words(refusal: u8) -> &'static str {
    match refusal {
        1 => "the width is not 3, 4, 5 or 7",
        2 => "the length is not the right one",
        3 => "there are too many erasures",
        4 => "an erasure is no place of the word",
        5 => "an erasure is given twice",
        6 => "a symbol outside the erasures is not below 2^width",
        7 => "no codeword is near",
        8 => "an unused erasure byte is not 255, or the tail is not 0",
        11 => "the width of a day sheet is not 7",
        12 => "the date of a day sheet does not exist",
        13 => "an unused symbol of a day sheet is not 0",
        14 => "several codewords agree outside the five erasures",
        15 => "there are five erasures, and the old edition has room for four",
        17 => "the card has no record of that number",
        20 => "the two day sheets have not the same pump and date",
        _ => panic!("a program does not refuse with {refusal}"),
    }
}

/// The end of cardcheck. It reads no further than the batch of the first refused record, and knows the card's length only at its end.
pub fn checked(card: &[u8], file: &str) -> Ended {
    let hint = hint("cardcheck", file, card.len());
    let number = match check(card) {
        Ok(()) => return Ended::new(0, "ok\n", hint),
        Err(number) => number,
    };
    let before = number as usize - 1;
    let refusal = judge(card.chunks(RECORD).nth(before).expect("the record")).expect_err("a refused record");
    let behind = card.len() - before / BATCH_SLOTS * BATCH_SLOTS * RECORD;
    let hint = if behind < BATCH_SLOTS * RECORD { hint } else { String::new() };
    Ended::new(1, refusal_line(number, refusal), hint)
}

/// What cardrestore counts.
#[derive(Default)]
pub struct Counts {
    pub restored: u64,
    pub changed: u64,
    pub refused: u64,
    pub blank: u64,
}

impl Counts {
    pub fn add(&mut self, slot: &[u8], judged: Result<u8, u8>) {
        match judged {
            _ if is_blank(slot) => self.blank += 1,
            Ok(changed) => {
                self.restored += 1;
                self.changed += u64::from(changed);
            }
            Err(_) => self.refused += 1,
        }
    }

    pub fn line(&self) -> String {
        format!("restored {}, changed {}, refused {}, blank {}\n", self.restored, self.changed, self.refused, self.blank)
    }
}

/// A slot restored with the reach `most`, or with its own where that is less.
fn restore_up_to(slot: &[u8], most: u8) -> Result<(u8, Vec<u8>), u8> {
    match restore_of(MARKS, slot, Some(most)) {
        Err(16) => restore_of(MARKS, slot, None),
        answer => answer,
    }
}

/// The restored card and what is counted of it.
pub fn restored_card(card: &[u8], most: u8) -> (Vec<u8>, Counts) {
    let (mut out, mut counts) = (Vec::new(), Counts::default());
    for slot in card.chunks(RECORD) {
        let answer = restore_up_to(slot, most);
        counts.add(slot, answer.as_ref().map(|(changed, _)| *changed).map_err(|&refusal| refusal));
        out.extend(answer.map_or(slot.to_vec(), |(_, after)| after));
    }
    (out, counts)
}

/// The end of cardrestore.
pub fn restored(card: &[u8], file: &str, most: u8) -> Ended {
    let (out, counts) = restored_card(card, most);
    let status = if counts.refused == 0 { 0 } else { 1 };
    Ended::new(status, out, hint("cardrestore", file, card.len()) + &counts.line())
}

/// The first line of a table.
pub const HEADER: &str = "pump sheets starts full highest date quotient remainder\n";

/// The table of cardstarts.
pub fn table(card: &[u8], first: usize, end: usize) -> String {
    let numbers = report(card, first as u8, end as u8, REPORT).expect("a window");
    let (rows, last) = numbers.split_at(PUMPS * ROW);
    let line = |(pump, row): (usize, &[u64])| {
        let [sheets, sum, full, highest, year, month, day, quotient, remainder] = <[u64; ROW]>::try_from(row).expect("nine numbers");
        let century = if year < 100 { 20 } else { 21 };
        let date = format!("{century}{:02}-{month:02}-{day:02}", year % 100);
        (sheets > 0).then(|| format!("{pump} {sheets} {sum} {full} {highest} {date} {quotient} {remainder}\n"))
    };
    let lines: String = rows.chunks(ROW).enumerate().filter_map(line).collect();
    format!("{HEADER}{lines}refused {}\nblank {}\n{}", last[0], last[1], ["", "more\n"][last[2] as usize])
}

/// The end of cardstarts.
pub fn tabled(card: &[u8], file: &str, first: usize, end: usize) -> Ended {
    Ended::new(0, table(card, first, end), hint("cardstarts", file, card.len()))
}

/// The end of any program on a card that each one takes: cardconvert to-old, and cardstarts over the whole day.
pub fn done(name: &str, card: &[u8], file: &str) -> Ended {
    match name {
        "cardlist" => listed(card, file),
        "cardcheck" => checked(card, file),
        "cardrestore" => restored(card, file, LONGEST),
        "cardconvert" => Ended::new(0, to_old(card, card.len() / RECORD * OLD_RECORD).expect("a card that is converted"), ""),
        _ => tabled(card, file, 0, 96),
    }
}

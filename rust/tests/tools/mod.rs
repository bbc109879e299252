//! What the tests share: slices lent out of larger buffers, and numbers by chance.
#![allow(dead_code)] // an example uses its part

pub mod answers;
pub mod calls;
pub mod programs;
pub mod sheets;
pub mod wear;

use std::ops::Range;
use xrs::Refusal;

/// Numbers that are no width.
pub const BAD_WIDTHS: [u8; 8] = [0, 1, 2, 6, 8, 9, 128, 255];

/// Numbers of records that a card of so many has not.
pub fn other_numbers(count: u64) -> [u64; 8] {
    [0, count + 1, count + 2, count + 256, count + (1 << 32), u64::MAX / xrs::RECORD_SIZE as u64 + 1, u64::MAX - 1, u64::MAX]
}

/// As many bytes stand before and after each lent slice.
const RIM: usize = 24;

/// Lends copies of the slices, each inside a larger buffer that is filled with `rim`, and hands back what the call answers and what the
/// written slice then holds. Nothing else may change, and nothing at all where the call is refused.
fn lend_inside<T: std::fmt::Debug>(
    rim: u8,
    read: &[u8],
    write: &[u8],
    call: impl Fn(&[u8], &mut [u8]) -> Result<T, Refusal>,
) -> (Result<T, Refusal>, Vec<u8>) {
    let around = |content: &[u8]| [&[rim; RIM], content, &[rim; RIM]].concat();
    let (source, mut target) = (around(read), around(write));
    let middle = RIM..RIM + write.len();
    let answer = call(&source[RIM..RIM + read.len()], &mut target[middle.clone()]);
    let content = target[middle].to_vec();
    assert_eq!(source, around(read), "a slice lent for reading was changed");
    assert_eq!(target, around(&content), "a byte beside a lent slice was changed");
    if answer.is_err() {
        assert_eq!(content, write, "a refused call wrote: {answer:?}");
    }
    (answer, content)
}

/// The same twice: what the rims hold must not matter.
fn lend<T: PartialEq + std::fmt::Debug>(
    read: &[u8],
    write: &[u8],
    call: impl Fn(&[u8], &mut [u8]) -> Result<T, Refusal>,
) -> (Result<T, Refusal>, Vec<u8>) {
    let [first, second] = [0x00, 0xA7].map(|rim| lend_inside(rim, read, write, &call));
    assert_eq!(first, second, "bytes beside a lent slice were read");
    first
}

/// `xrs::encode` on copies of the slices: its answer, and the word afterwards.
pub fn encode(width: u8, data: &[u8], word: &[u8]) -> (Result<(), Refusal>, Vec<u8>) {
    lend(data, word, |data, word| xrs::encode(width, data, word))
}

/// `xrs::is_codeword` on a copy of the word.
pub fn is_codeword(width: u8, word: &[u8]) -> Result<bool, Refusal> {
    lend(word, &[], |word, _| xrs::is_codeword(width, word)).0
}

/// `xrs::read_data` on copies of the slices: its answer, and the data afterwards.
pub fn read_data(width: u8, word: &[u8], data: &[u8]) -> (Result<(), Refusal>, Vec<u8>) {
    lend(word, data, |word, data| xrs::read_data(width, word, data))
}

/// `xrs::syndromes` on copies of the slices.
pub fn syndromes(width: u8, word: &[u8], marks: &[u8]) -> Result<[u8; 5], Refusal> {
    let (answer, after) = lend(marks, word, |marks, word| xrs::syndromes(width, word, marks));
    assert_eq!(after, word, "the word was changed");
    answer
}

/// The answer of a call that restores, and what it leaves in the slice.
pub type Restored = (Result<u8, Refusal>, Vec<u8>);

/// `xrs::restore_word` on copies of the slices: its answer, and the word afterwards.
pub fn restore_word(width: u8, word: &[u8], marks: &[u8]) -> Restored {
    lend(marks, word, |marks, word| xrs::restore_word(width, word, marks))
}

/// The same with one call, inside bytes `rim`.
pub fn restore_word_inside(rim: u8, width: u8, word: &[u8], marks: &[u8]) -> Restored {
    lend_inside(rim, marks, word, |marks, word| xrs::restore_word(width, word, marks))
}

/// `xrs::restore_word_within` on copies of the slices: its answer, and the word afterwards.
pub fn restore_word_within(width: u8, word: &[u8], marks: &[u8], reach: u8) -> Restored {
    lend(marks, word, |marks, word| xrs::restore_word_within(width, word, marks, reach))
}

/// `xrs::restore_word_by_trials` on copies of the slices: its answer, and the word afterwards.
pub fn restore_word_by_trials(width: u8, word: &[u8], marks: &[u8]) -> Restored {
    lend(marks, word, |marks, word| xrs::restore_word_by_trials(width, word, marks))
}

/// `xrs::restore_word_by_trials_within` on copies of the slices: its answer, and the word afterwards.
pub fn restore_word_by_trials_within(width: u8, word: &[u8], marks: &[u8], reach: u8) -> Restored {
    lend(marks, word, |marks, word| xrs::restore_word_by_trials_within(width, word, marks, reach))
}

/// `xrs::restore_record` on a copy of the record: its answer, and the record afterwards.
pub fn restore_record(record: &[u8]) -> Restored {
    lend(&[], record, |_, record| xrs::restore_record(record))
}

/// `xrs::restore_record_within` on a copy of the record: its answer, and the record afterwards.
pub fn restore_record_within(record: &[u8], reach: u8) -> Restored {
    lend(&[], record, |_, record| xrs::restore_record_within(record, reach))
}

/// `xrs::check_card` on a copy of the card.
pub fn check_card(card: &[u8]) -> Result<(), u64> {
    lend(card, &[], |card, _| Ok(xrs::check_card(card))).0.expect("the card check refuses no card")
}

/// `xrs::card_to_new` on copies of the slices: its answer, and the output afterwards.
pub fn card_to_new(card: &[u8], out: &[u8]) -> (Result<(), Refusal>, Vec<u8>) {
    lend(card, out, xrs::card_to_new)
}

/// `xrs::card_to_old` on copies of the slices: its answer, and the output afterwards.
pub fn card_to_old(card: &[u8], out: &[u8]) -> (Result<(), Refusal>, Vec<u8>) {
    lend(card, out, xrs::card_to_old)
}

/// `xrs::Walk::step` on copies of the walk and the card: the walk or the refusal, and the card afterwards. A refused step leaves the walk.
pub fn walk_step(walk: xrs::Walk, card: &[u8]) -> (Result<xrs::Walk, Refusal>, Vec<u8>) {
    lend(&[], card, |_, card| {
        let mut after = walk;
        let answer = after.step(card);
        assert!(answer.is_ok() || after == walk, "a refused step left {after:?} of {walk:?}");
        answer.map(|()| after)
    })
}

/// `xrs::look` on copies of the slices: its answer, and the row afterwards.
pub fn look(card: &[u8], number: u64, row: &[u8]) -> (Result<(), Refusal>, Vec<u8>) {
    lend(card, row, |card, row| xrs::look(card, number, row))
}

/// A bay's call on copies of the counts and the record, with a reach or without: the number of changes with the counts or the refusal, and
/// the record afterwards. A refused call leaves the counts.
pub fn bay_restore(bay: u8, left: xrs::Counts, record: &[u8], reach: Option<u8>) -> (Result<(u8, xrs::Counts), Refusal>, Vec<u8>) {
    lend(&[], record, |_, record| {
        let mut after = left;
        let answer = match reach {
            Some(reach) => after.restore_within(bay, record, reach),
            None => after.restore(bay, record),
        };
        assert!(answer.is_ok() || after == left, "a refused call left {after:?} of {left:?}");
        answer.map(|changed| (changed, after))
    })
}

/// `xrs::write_sheet` on copies of the slices: its answer, and the word afterwards.
pub fn write_sheet(width: u8, symbols: &[u8], word: &[u8]) -> (Result<(), Refusal>, Vec<u8>) {
    lend(symbols, word, |symbols, word| xrs::write_sheet(width, symbols, word))
}

/// `xrs::read_sheet` on copies of the slices: its answer, and the symbols afterwards.
pub fn read_sheet(width: u8, word: &[u8], symbols: &[u8]) -> (Result<(), Refusal>, Vec<u8>) {
    lend(word, symbols, |word, symbols| xrs::read_sheet(width, word, symbols))
}

/// A comparison of two sheets: its signs, its totals, the chosen side, and which bytes of that side's card are the part handed back.
pub type Compared = (Vec<u8>, [u8; 3], xrs::Side, Range<usize>);

/// `xrs::compare_sheets` on copies of the cards.
pub fn compare_sheets(controller: &[u8], number: u64, cupboard: &[u8], other_number: u64) -> Result<Compared, Refusal> {
    let (answer, after) = lend(controller, cupboard, |controller, cupboard| {
        let cupboard = &*cupboard;
        let found = xrs::compare_sheets(controller, number, cupboard, other_number)?;
        let card = if found.chosen == xrs::Side::Controller { controller } else { cupboard };
        let start = found.part.as_ptr() as usize - card.as_ptr() as usize;
        let totals = [found.equal, found.controller_higher, found.cupboard_higher];
        Ok((found.signs.to_vec(), totals, found.chosen, start..start + found.part.len()))
    });
    assert_eq!(after, cupboard, "the cupboard's card was changed");
    answer
}

/// `xrs::compare_part` on copies of the cards: whose card the part lies on, and which of its bytes it is.
pub fn compare_part(controller: &[u8], number: u64, cupboard: &[u8], other_number: u64) -> Result<(xrs::Side, Range<usize>), Refusal> {
    let (answer, after) = lend(controller, cupboard, |controller, cupboard| {
        let cupboard = &*cupboard;
        let part = xrs::compare_part(controller, number, cupboard, other_number)?;
        let ours = controller.as_ptr_range().contains(&part.as_ptr());
        let (side, card) = if ours { (xrs::Side::Controller, controller) } else { (xrs::Side::Cupboard, cupboard) };
        let start = part.as_ptr() as usize - card.as_ptr() as usize;
        Ok((side, start..start + part.len()))
    });
    assert_eq!(after, cupboard, "the cupboard's card was changed");
    answer
}

/// `xrs::window` on a copy of the card.
pub fn window(card: &[u8], first: u8, end: u8) -> Result<xrs::Report, Refusal> {
    lend(card, &[], |card, _| xrs::window(card, first, end)).0
}

/// The answer of the reference, its number as a refusal.
pub fn refusal<T>(answer: Result<T, u8>) -> Result<T, Refusal> {
    answer.map_err(|number| Refusal::from_number(number).expect("a refusal number"))
}

/// What a call answers and leaves in the slice by the reference: with a refusal, what it held `before`.
pub fn wanted<T>(answer: Result<(T, Vec<u8>), u8>, before: &[u8]) -> (Result<T, Refusal>, Vec<u8>) {
    match refusal(answer) {
        Ok((value, after)) => (Ok(value), after),
        Err(refused) => (Err(refused), before.to_vec()),
    }
}

/// How often each answer was given: by its number where it is a refusal, else at 0.
#[derive(Debug, Default)]
pub struct Tally([usize; 22]);

impl Tally {
    pub fn add<T>(&mut self, answer: &Result<T, Refusal>) {
        self.0[answer.as_ref().map_or_else(|refusal| refusal.number() as usize, |_| 0)] += 1;
    }

    /// Fails unless each of these was given more than `least` times.
    pub fn given(&self, numbers: &[usize], least: usize) {
        let rare = numbers.iter().find(|&&number| self.0[number] <= least);
        assert!(rare.is_none(), "{rare:?} was not given more than {least} times: {self:?}");
    }
}

/// The generator xorshift64 from a fixed seed, so that each run tries the same.
pub struct Chance(u64);

impl Chance {
    pub fn new() -> Chance {
        Chance(0x9E37_79B9_7F4A_7C15)
    }

    /// A number below `bound`, which is not 0.
    pub fn below(&mut self, bound: usize) -> usize {
        self.0 ^= self.0 << 13;
        self.0 ^= self.0 >> 7;
        self.0 ^= self.0 << 17;
        ((self.0 >> 32) as usize) % bound
    }

    /// A list of symbols below `order`.
    pub fn symbols(&mut self, length: usize, order: usize) -> Vec<u8> {
        (0..length).map(|_| self.below(order) as u8).collect()
    }

    /// Different places below `n`, in any order.
    pub fn places(&mut self, count: usize, n: usize) -> Vec<u8> {
        let mut found = Vec::new();
        while found.len() < count {
            let place = self.below(n) as u8;
            if !found.contains(&place) {
                found.push(place);
            }
        }
        found
    }
}

//! Safe calls of the proved library. Nothing here can panic: a bad input is an `Err` that says which question was answered no.
//!
//! A word of width 3, 4, 5 or 7 has n = q + 4 symbols, one to a byte, where q is 2^width: 12, 20, 36 or 132. Its first five are check
//! symbols, the other q - 1 are the data. Two codewords differ at five places or more, at width 4 at four or more. A call that returns
//! `Err` leaves every slice as it was.
//!
//! The crate links the archive `libxrs.a`. It finds the one that `./package` builds in the repository; elsewhere `XRS_LIB_DIR` names its
//! folder, or pkg-config finds it.
#![warn(missing_docs)]

mod slots;

pub use slots::{slots, Slot, Slots};

/// The question that was answered no.
#[derive(Clone, Copy, Debug, PartialEq, Eq)]
pub enum Refusal {
    /// The width is not 3, 4, 5 or 7.
    Width,
    /// The length is not the right one.
    /// Each slice has its exact length, which the call's comment names.
    Length,
    /// There are too many erasures.
    /// Five are allowed, at width 4 three; in a record of the old edition four.
    ErasureCount,
    /// An erasure is no place of the word.
    ErasurePlace,
    /// An erasure is given twice.
    ErasureDistinct,
    /// A symbol outside the erasures is not below 2^width.
    Symbol,
    /// No codeword is near.
    Correctable,
    /// An unused erasure byte is not 255, or the tail is not 0.
    Padding,
    /// A syndrome is not zero.
    Syndrome,
    /// The symbol 0 has no inverse.
    Nonzero,
    /// The width of a day sheet is not 7.
    SheetWidth,
    /// The date of a day sheet does not exist.
    Date,
    /// An unused symbol of a day sheet is not 0.
    /// These are c_100 to c_126.
    Unused,
    /// Several codewords agree outside the five erasures.
    Unique,
    /// There are five erasures, and the old edition has room for four.
    FourErasures,
    /// The reach is longer than r.
    /// That is the reach of the calls that are given none: see `restore_word`.
    Reach,
    /// The card has no record of that number.
    RecordNumber,
    /// The bay is not 0 to 3.
    Bay,
    /// No rewrite is left to the bay.
    /// Neither its own nor a common one, and the record would change.
    Rewrite,
    /// The two day sheets have not the same pump and date.
    SameDay,
    /// The window has no quarter hour, or its end is above 96.
    Window,
    /// A refusal number that stands at none of the others. The archive that this crate was written for gives none.
    Unknown(u8),
}

impl Refusal {
    /// The refusal number of the papers.
    pub fn number(self) -> u8 {
        match self {
            Refusal::Width => 1,
            Refusal::Length => 2,
            Refusal::ErasureCount => 3,
            Refusal::ErasurePlace => 4,
            Refusal::ErasureDistinct => 5,
            Refusal::Symbol => 6,
            Refusal::Correctable => 7,
            Refusal::Padding => 8,
            Refusal::Syndrome => 9,
            Refusal::Nonzero => 10,
            Refusal::SheetWidth => 11,
            Refusal::Date => 12,
            Refusal::Unused => 13,
            Refusal::Unique => 14,
            Refusal::FourErasures => 15,
            Refusal::Reach => 16,
            Refusal::RecordNumber => 17,
            Refusal::Bay => 18,
            Refusal::Rewrite => 19,
            Refusal::SameDay => 20,
            Refusal::Window => 21,
            Refusal::Unknown(number) => number,
        }
    }

    /// The refusal of a number; `None` for 0, which is none.
    ///
    /// ```
    /// assert_eq!(xrs::Refusal::from_number(7), Some(xrs::Refusal::Correctable));
    /// assert_eq!(xrs::Refusal::from_number(200), Some(xrs::Refusal::Unknown(200)));
    /// assert_eq!(xrs::Refusal::from_number(0), None);
    /// ```
    pub fn from_number(number: u8) -> Option<Refusal> {
        use Refusal::*;
        let base = [Width, Length, ErasureCount, ErasurePlace, ErasureDistinct, Symbol, Correctable, Padding, Syndrome, Nonzero];
        let later = [SheetWidth, Date, Unused, Unique, FourErasures, Reach, RecordNumber, Bay, Rewrite, SameDay, Window];
        let mut known = base.into_iter().chain(later);
        match known.find(|refusal| refusal.number() == number) {
            None if number != 0 => Some(Unknown(number)),
            found => found,
        }
    }
}

/// What was wrong, in words.
///
/// ```
/// assert_eq!(xrs::Refusal::Correctable.to_string(), "no codeword is near");
/// ```
impl std::fmt::Display for Refusal {
    fn fmt(&self, out: &mut std::fmt::Formatter<'_>) -> std::fmt::Result {
        out.write_str(match self {
            Refusal::Width => "the width is not 3, 4, 5 or 7",
            Refusal::Length => "the length is not the right one",
            Refusal::ErasureCount => "there are too many erasures",
            Refusal::ErasurePlace => "an erasure is no place of the word",
            Refusal::ErasureDistinct => "an erasure is given twice",
            Refusal::Symbol => "a symbol outside the erasures is not below 2^width",
            Refusal::Correctable => "no codeword is near",
            Refusal::Padding => "an unused erasure byte is not 255, or the tail is not 0",
            Refusal::Syndrome => "a syndrome is not zero",
            Refusal::Nonzero => "the symbol 0 has no inverse",
            Refusal::SheetWidth => "the width of a day sheet is not 7",
            Refusal::Date => "the date of a day sheet does not exist",
            Refusal::Unused => "an unused symbol of a day sheet is not 0",
            Refusal::Unique => "several codewords agree outside the five erasures",
            Refusal::FourErasures => "there are five erasures, and the old edition has room for four",
            Refusal::Reach => "the reach is longer than r",
            Refusal::RecordNumber => "the card has no record of that number",
            Refusal::Bay => "the bay is not 0 to 3",
            Refusal::Rewrite => "no rewrite is left to the bay",
            Refusal::SameDay => "the two day sheets have not the same pump and date",
            Refusal::Window => "the window has no quarter hour, or its end is above 96",
            Refusal::Unknown(number) => return write!(out, "refused with the number {number}, which is not known here"),
        })
    }
}

/// With the feature `std`, which is there by default.
///
/// ```
/// let error: Box<dyn std::error::Error> = xrs::inverse(3, 0).unwrap_err().into();
/// assert_eq!(error.to_string(), "the symbol 0 has no inverse");
/// ```
#[cfg(feature = "std")]
impl std::error::Error for Refusal {}

mod raw {
    extern "C" {
        pub fn xrs_sum(width: u8, a: u8, b: u8) -> u32;
        pub fn xrs_product(width: u8, a: u8, b: u8) -> u32;
        pub fn xrs_power(width: u8, a: u8, e: u16) -> u32;
        pub fn xrs_inverse(width: u8, a: u8) -> u32;
        pub fn xrs_encode(width: u8, data: *const u8, data_length: usize, word: *mut u8, word_length: usize) -> u32;
        pub fn xrs_is_codeword(width: u8, word: *const u8, word_length: usize) -> u32;
        pub fn xrs_read_data(width: u8, word: *const u8, word_length: usize, data: *mut u8, data_length: usize) -> u32;
        pub fn xrs_syndromes(width: u8, word: *const u8, word_length: usize, marks: *const u8, marks_length: usize) -> u64;
        pub fn xrs_restore_word(width: u8, word: *mut u8, word_length: usize, marks: *const u8, marks_length: usize) -> u32;
        pub fn xrs_restore_word_within(width: u8, word: *mut u8, word_length: usize, marks: *const u8, marks_length: usize, reach: u8) -> u32;
        pub fn xrs_restore_word_by_trials(width: u8, word: *mut u8, word_length: usize, marks: *const u8, marks_length: usize) -> u32;
        pub fn xrs_restore_word_by_trials_within(
            width: u8,
            word: *mut u8,
            word_length: usize,
            marks: *const u8,
            marks_length: usize,
            reach: u8,
        ) -> u32;
        pub fn xrs_restore_record(record: *mut u8, record_length: usize) -> u32;
        pub fn xrs_restore_record_within(record: *mut u8, record_length: usize, reach: u8) -> u32;
        pub fn xrs_check_card(card: *const u8, card_length: usize) -> u64;
        pub fn xrs_card_to_new(card: *const u8, card_length: usize, out: *mut u8, out_length: usize) -> u32;
        pub fn xrs_card_to_old(card: *const u8, card_length: usize, out: *mut u8, out_length: usize) -> u32;
        pub fn xrs_walk_step(length: u64, next: *mut u64, card: *mut u8, card_length: usize) -> u32;
        pub fn xrs_look(card: *const u8, card_length: usize, number: u64, row: *mut u8, row_length: usize) -> u32;
        pub fn xrs_charge(left: *mut u16, left_length: usize) -> u32;
        pub fn xrs_bay_restore(bay: u8, left: *mut u16, left_length: usize, record: *mut u8, record_length: usize) -> u32;
        pub fn xrs_bay_restore_within(bay: u8, left: *mut u16, left_length: usize, record: *mut u8, record_length: usize, reach: u8) -> u32;
        pub fn xrs_write_sheet(width: u8, symbols: *const u8, symbols_length: usize, word: *mut u8, word_length: usize) -> u32;
        pub fn xrs_read_sheet(width: u8, word: *const u8, word_length: usize, symbols: *mut u8, symbols_length: usize) -> u32;
        pub fn xrs_compare_sheets(
            controller: *const u8,
            controller_length: usize,
            controller_number: u64,
            cupboard: *const u8,
            cupboard_length: usize,
            cupboard_number: u64,
            signs: *mut u8,
            signs_length: usize,
        ) -> u64;
        pub fn xrs_compare_part(
            controller: *const u8,
            controller_length: usize,
            controller_number: u64,
            cupboard: *const u8,
            cupboard_length: usize,
            cupboard_number: u64,
            offset: *mut u64,
            size: *mut u64,
        ) -> u32;
        pub fn xrs_window(card: *const u8, card_length: usize, first: u8, end: u8, report: *mut u64, report_length: usize) -> u32;
    }
}

/// Takes refusal + 256 * value apart.
fn unpack(packed: u32) -> Result<u32, Refusal> {
    Refusal::from_number(packed as u8).map_or(Ok(packed / 256), Err)
}

/// Takes an answer of 64 bits apart: the refusal is its lowest byte, and the bytes above are values.
fn unpack_bytes(packed: u64) -> Result<[u8; 7], Refusal> {
    let [refusal, values @ ..] = packed.to_le_bytes();
    Refusal::from_number(refusal).map_or(Ok(values), Err)
}

fn symbol(packed: u32) -> Result<u8, Refusal> {
    unpack(packed).map(|value| value as u8)
}

/// The sum of two symbols.
///
/// ```
/// assert_eq!(xrs::sum(3, 5, 6), Ok(3));
/// assert_eq!(xrs::sum(6, 5, 6), Err(xrs::Refusal::Width));
/// ```
pub fn sum(width: u8, a: u8, b: u8) -> Result<u8, Refusal> {
    symbol(unsafe { raw::xrs_sum(width, a, b) })
}

/// The product of two symbols.
///
/// ```
/// assert_eq!(xrs::product(3, 7, 7), Ok(3));
/// assert_eq!(xrs::product(3, 7, 8), Err(xrs::Refusal::Symbol));
/// ```
pub fn product(width: u8, a: u8, b: u8) -> Result<u8, Refusal> {
    symbol(unsafe { raw::xrs_product(width, a, b) })
}

/// A symbol to the power `e`; the power 0 is 1, also of 0.
///
/// ```
/// assert_eq!(xrs::power(7, 2, 100), Ok(119));
/// assert_eq!(xrs::power(7, 0, 0), Ok(1));
/// ```
pub fn power(width: u8, a: u8, e: u16) -> Result<u8, Refusal> {
    symbol(unsafe { raw::xrs_power(width, a, e) })
}

/// The inverse of a symbol other than 0.
///
/// ```
/// assert_eq!(xrs::inverse(3, 2), Ok(5));
/// assert_eq!(xrs::inverse(3, 0), Err(xrs::Refusal::Nonzero));
/// ```
pub fn inverse(width: u8, a: u8) -> Result<u8, Refusal> {
    symbol(unsafe { raw::xrs_inverse(width, a) })
}

/// Writes the codeword of the data into `word`: five check symbols, then the data. What `word` held before does not matter.
///
/// ```
/// let mut word = [255; 12];
/// assert_eq!(xrs::encode(3, &[3, 0, 1, 0, 0, 0, 0], &mut word), Ok(()));
/// assert_eq!(word, [2, 7, 5, 6, 1, 3, 0, 1, 0, 0, 0, 0]);
/// assert_eq!(xrs::encode(3, &[8, 0, 1, 0, 0, 0, 0], &mut word), Err(xrs::Refusal::Symbol));
/// assert_eq!(xrs::encode(5, &[3, 0, 1, 0, 0, 0, 0], &mut word), Err(xrs::Refusal::Length));
/// ```
pub fn encode(width: u8, data: &[u8], word: &mut [u8]) -> Result<(), Refusal> {
    unpack(unsafe { raw::xrs_encode(width, data.as_ptr(), data.len(), word.as_mut_ptr(), word.len()) }).map(|_| ())
}

/// Are the five syndromes of `word` zero?
///
/// ```
/// assert_eq!(xrs::is_codeword(3, &[1, 1, 1, 1, 1, 1, 0, 0, 0, 0, 0, 0]), Ok(true));
/// assert_eq!(xrs::is_codeword(3, &[1, 1, 1, 1, 0, 1, 0, 0, 0, 0, 0, 0]), Ok(false));
/// assert_eq!(xrs::is_codeword(3, &[1, 1, 1, 1, 8, 1, 0, 0, 0, 0, 0, 0]), Err(xrs::Refusal::Symbol));
/// ```
pub fn is_codeword(width: u8, word: &[u8]) -> Result<bool, Refusal> {
    unpack(unsafe { raw::xrs_is_codeword(width, word.as_ptr(), word.len()) }).map(|value| value == 1)
}

/// Writes the data of the codeword `word` into `data`. What `data` held before does not matter.
///
/// ```
/// let mut data = [255; 7];
/// assert_eq!(xrs::read_data(3, &[1, 2, 4, 3, 6, 0, 1, 0, 0, 0, 0, 0], &mut data), Ok(()));
/// assert_eq!(data, [0, 1, 0, 0, 0, 0, 0]);
/// assert_eq!(xrs::read_data(3, &[0, 2, 4, 3, 6, 0, 1, 0, 0, 0, 0, 0], &mut data), Err(xrs::Refusal::Syndrome));
/// ```
pub fn read_data(width: u8, word: &[u8], data: &mut [u8]) -> Result<(), Refusal> {
    unpack(unsafe { raw::xrs_read_data(width, word.as_ptr(), word.len(), data.as_mut_ptr(), data.len()) }).map(|_| ())
}

/// The five syndromes of `word` over its unmarked places: a marked place counts as 0, whatever byte it holds. With no marks they are those
/// that `is_codeword` asks for.
///
/// ```
/// let word = [0, 0, 0, 0, 0, 0, 1, 0, 0, 0, 0, 200];
/// assert_eq!(xrs::syndromes(3, &word, &[11]), Ok([1, 2, 4, 3, 6]));
/// assert_eq!(xrs::syndromes(3, &word, &[6, 11]), Ok([0; 5]));
/// assert_eq!(xrs::syndromes(3, &word, &[6]), Err(xrs::Refusal::Symbol));
/// ```
pub fn syndromes(width: u8, word: &[u8], marks: &[u8]) -> Result<[u8; 5], Refusal> {
    let packed = unsafe { raw::xrs_syndromes(width, word.as_ptr(), word.len(), marks.as_ptr(), marks.len()) };
    unpack_bytes(packed).map(|[s0, s1, s2, s3, s4, ..]| [s0, s1, s2, s3, s4])
}

/// Writes the near codeword in place of `word`, and answers the number of unmarked places that changed, 0 to 2. The near codeword differs
/// from `word` at no more than r unmarked places: r is (4 - `marks.len()`) / 2 rounded down, and 0 with five marks; at width 4 it is
/// (3 - `marks.len()`) / 2 rounded down. With up to four marks there is never a second one; with five there may be several, and then the
/// call is refused.
///
/// `marks` are the erasures: at most five different places, at width 4 at most three, in any order. A marked place may hold any byte, and
/// its change is not counted.
///
/// ```
/// // Two wrong symbols, no marks.
/// let mut word = [7, 0, 0, 0, 0, 7, 0, 0, 0, 0, 0, 0];
/// assert_eq!(xrs::restore_word(3, &mut word, &[]), Ok(2));
/// assert_eq!(word, [0; 12]);
///
/// // Four marks; two of them are wrong, one holds no symbol.
/// let mut word = [1, 2, 200, 3, 6, 0, 0, 0, 0, 0, 0, 0];
/// assert_eq!(xrs::restore_word(3, &mut word, &[8, 2, 6, 5]), Ok(0));
/// assert_eq!(word, [1, 2, 4, 3, 6, 0, 1, 0, 0, 0, 0, 0]);
///
/// // Three wrong symbols.
/// let mut word = [1, 1, 1, 0, 0, 0, 0, 0, 0, 0, 0, 0];
/// assert_eq!(xrs::restore_word(3, &mut word, &[]), Err(xrs::Refusal::Correctable));
/// assert_eq!(word, [1, 1, 1, 0, 0, 0, 0, 0, 0, 0, 0, 0]);
/// assert_eq!(xrs::restore_word(3, &mut word, &[12]), Err(xrs::Refusal::ErasurePlace));
/// assert_eq!(xrs::restore_word(3, &mut word, &[3, 3]), Err(xrs::Refusal::ErasureDistinct));
/// assert_eq!(xrs::restore_word(3, &mut word, &[0, 1, 2, 3, 4, 5]), Err(xrs::Refusal::ErasureCount));
///
/// // Five marks: one codeword agrees outside them, or none, or several.
/// let mut word = [0, 0, 0, 0, 0, 0, 1, 0, 0, 0, 0, 0];
/// assert_eq!(xrs::restore_word(3, &mut word, &[0, 1, 2, 3, 4]), Ok(0));
/// assert_eq!(word, [1, 2, 4, 3, 6, 0, 1, 0, 0, 0, 0, 0]);
/// assert_eq!(xrs::restore_word(3, &mut [1, 0, 0, 0, 0, 0, 0, 0, 0, 0, 0, 0], &[2, 4, 5, 6, 8]), Err(xrs::Refusal::Correctable));
/// assert_eq!(xrs::restore_word(3, &mut [0; 12], &[2, 4, 5, 6, 8]), Err(xrs::Refusal::Unique));
///
/// // Width 4.
/// let mut word = [0; 20];
/// word[7] = 9;
/// assert_eq!(xrs::restore_word(4, &mut word, &[0]), Ok(1));
/// assert_eq!(xrs::restore_word(4, &mut word, &[0, 1, 2, 3]), Err(xrs::Refusal::ErasureCount));
/// ```
pub fn restore_word(width: u8, word: &mut [u8], marks: &[u8]) -> Result<u8, Refusal> {
    unpack(unsafe { raw::xrs_restore_word(width, word.as_mut_ptr(), word.len(), marks.as_ptr(), marks.len()) }).map(|count| count as u8)
}

/// `restore_word` that looks no further than `reach`: no more unmarked places are changed, and a word for which more would have to be is
/// refused. The longest reach is the r of `restore_word`.
///
/// A word with more wrong symbols than can be undone may be near another codeword than the one that was written. A shorter reach makes this
/// rarer. With up to four marks, and no more than 4 - `marks.len()` - `reach` unmarked symbols wrong (3 in place of 4 at width 4), the
/// codeword that was written comes back or the call is refused with `Refusal::Correctable`; another never comes.
///
/// ```
/// // Zeros were written, and three symbols are wrong.
/// let mut word = [0, 0, 6, 0, 4, 1, 0, 0, 0, 0, 0, 0];
/// assert_eq!(xrs::restore_word_within(3, &mut word, &[], 1), Err(xrs::Refusal::Correctable));
/// assert_eq!(xrs::restore_word_within(3, &mut word, &[], 3), Err(xrs::Refusal::Reach));
/// assert_eq!(xrs::restore_word_within(3, &mut word, &[], 2), Ok(2));
/// assert_eq!(word, [0, 0, 6, 0, 4, 1, 2, 0, 3, 0, 0, 0]); // another codeword
/// ```
pub fn restore_word_within(width: u8, word: &mut [u8], marks: &[u8], reach: u8) -> Result<u8, Refusal> {
    let packed = unsafe { raw::xrs_restore_word_within(width, word.as_mut_ptr(), word.len(), marks.as_ptr(), marks.len(), reach) };
    unpack(packed).map(|count| count as u8)
}

/// `restore_word` by another method: the places of wrong symbols are tried, one set after the other, where `restore_word` finds them from
/// the syndromes. The answer and the word afterwards are the same on every input; this takes longer.
///
/// ```
/// let mut word = [7, 0, 0, 0, 0, 7, 0, 0, 0, 0, 0, 0];
/// assert_eq!(xrs::restore_word_by_trials(3, &mut word, &[]), Ok(2));
/// assert_eq!(word, [0; 12]);
/// ```
pub fn restore_word_by_trials(width: u8, word: &mut [u8], marks: &[u8]) -> Result<u8, Refusal> {
    let packed = unsafe { raw::xrs_restore_word_by_trials(width, word.as_mut_ptr(), word.len(), marks.as_ptr(), marks.len()) };
    unpack(packed).map(|count| count as u8)
}

/// `restore_word_within` by the method of `restore_word_by_trials`, with the same answers.
///
/// ```
/// let mut word = [7, 0, 0, 0, 0, 7, 0, 0, 0, 0, 0, 0];
/// assert_eq!(xrs::restore_word_by_trials_within(3, &mut word, &[], 1), Err(xrs::Refusal::Correctable));
/// assert_eq!(xrs::restore_word_by_trials_within(3, &mut word, &[], 2), Ok(2));
/// ```
pub fn restore_word_by_trials_within(width: u8, word: &mut [u8], marks: &[u8], reach: u8) -> Result<u8, Refusal> {
    let (symbols, n) = (word.as_mut_ptr(), word.len());
    let packed = unsafe { raw::xrs_restore_word_by_trials_within(width, symbols, n, marks.as_ptr(), marks.len(), reach) };
    unpack(packed).map(|count| count as u8)
}

/// Bytes of a record: the width, the number of marks, five bytes for the marks (255 where unused), the word, and zeros.
pub const RECORD_SIZE: usize = 139;

/// Restores the word of a record with the marks that the record names, leaves the record without marks, and answers the number of unmarked
/// places that changed, 0 to 2.
///
/// ```
/// let mut record = [0; xrs::RECORD_SIZE];
/// record[..7].copy_from_slice(&[3, 1, 7, 255, 255, 255, 255]); // width 3, one mark, at place 7
/// record[7 + 7] = 200;
/// record[7 + 11] = 5; // a wrong symbol
/// assert_eq!(xrs::restore_record(&mut record), Ok(1));
/// assert_eq!(record[..7], [3, 0, 255, 255, 255, 255, 255]);
/// assert_eq!(record[7..], [0; 132]);
///
/// record[138] = 1; // the tail of a record is 0
/// assert_eq!(xrs::restore_record(&mut record), Err(xrs::Refusal::Padding));
/// assert_eq!(xrs::restore_record(&mut record[1..]), Err(xrs::Refusal::Length));
/// ```
pub fn restore_record(record: &mut [u8]) -> Result<u8, Refusal> {
    unpack(unsafe { raw::xrs_restore_record(record.as_mut_ptr(), record.len()) }).map(|count| count as u8)
}

/// `restore_record` that looks no further than `reach`, as `restore_word_within` does.
///
/// ```
/// let mut record = [0; xrs::RECORD_SIZE];
/// record[..7].copy_from_slice(&[3, 1, 7, 255, 255, 255, 255]);
/// record[7 + 11] = 5; // a wrong symbol
/// assert_eq!(xrs::restore_record_within(&mut record, 2), Err(xrs::Refusal::Reach));
/// assert_eq!(xrs::restore_record_within(&mut record, 0), Err(xrs::Refusal::Correctable));
/// assert_eq!(xrs::restore_record_within(&mut record, 1), Ok(1));
/// ```
pub fn restore_record_within(record: &mut [u8], reach: u8) -> Result<u8, Refusal> {
    unpack(unsafe { raw::xrs_restore_record_within(record.as_mut_ptr(), record.len(), reach) }).map(|count| count as u8)
}

/// Would every record of the card be accepted by `restore_record`? If not, the `Err` holds the number of the first that would not be,
/// counted from 1. A slot of bytes 255 alone is blank: it is passed over, and counted. A last piece shorter than a slot is a record that
/// would not be accepted, even where all its bytes are 255. An empty card passes.
///
/// ```
/// let mut card = [0; 2 * xrs::RECORD_SIZE];
/// for record in card.chunks_mut(xrs::RECORD_SIZE) {
///     record[..7].copy_from_slice(&[3, 0, 255, 255, 255, 255, 255]);
/// }
/// assert_eq!(xrs::check_card(&card), Ok(()));
/// assert_eq!(xrs::check_card(&card[..200]), Err(2));
/// card[0] = 6;
/// assert_eq!(xrs::check_card(&card), Err(1));
/// card[..xrs::RECORD_SIZE].fill(255);
/// assert_eq!(xrs::check_card(&card), Ok(()));
/// assert_eq!(xrs::check_card(&[]), Ok(()));
/// ```
pub fn check_card(card: &[u8]) -> Result<(), u64> {
    match unsafe { raw::xrs_check_card(card.as_ptr(), card.len()) } {
        0 => Ok(()),
        number => Err(number),
    }
}

/// Bytes of a record of the old edition, which has four bytes for the marks.
pub const OLD_RECORD_SIZE: usize = 138;

/// Writes a card of the old edition, with slots of 138 bytes, as a card with slots of 139 bytes into `out`: each record gets a fifth mark
/// byte, and a blank slot stays blank. What `out` held before does not matter.
///
/// The lengths are asked first: `card` must be whole slots, and `out` as many. Then each question is put for all records before the next:
/// the widths, the numbers of marks, and the unused mark bytes and tails. Marks and symbols are not asked about; they are what they were.
///
/// ```
/// let mut old = [0; 2 * xrs::OLD_RECORD_SIZE];
/// old[..6].copy_from_slice(&[3, 1, 7, 255, 255, 255]); // width 3, one mark, at place 7
/// old[xrs::OLD_RECORD_SIZE..].fill(255); // a blank slot
/// let mut new = [0; 2 * xrs::RECORD_SIZE];
/// assert_eq!(xrs::card_to_new(&old, &mut new), Ok(()));
/// assert_eq!(new[..7], [3, 1, 7, 255, 255, 255, 255]);
/// assert_eq!(new[xrs::RECORD_SIZE..], [255; xrs::RECORD_SIZE]);
///
/// assert_eq!(xrs::card_to_new(&old, &mut new[1..]), Err(xrs::Refusal::Length));
/// old[1] = 5;
/// assert_eq!(xrs::card_to_new(&old, &mut new), Err(xrs::Refusal::ErasureCount));
/// ```
pub fn card_to_new(card: &[u8], out: &mut [u8]) -> Result<(), Refusal> {
    unpack(unsafe { raw::xrs_card_to_new(card.as_ptr(), card.len(), out.as_mut_ptr(), out.len()) }).map(|_| ())
}

/// Writes a card with slots of 139 bytes as one of the old edition into `out`: `card_to_new` the other way. After the same questions, no
/// record may have five marks.
///
/// ```
/// let mut new = [0; xrs::RECORD_SIZE];
/// new[..7].copy_from_slice(&[3, 4, 0, 1, 2, 3, 255]);
/// let (mut old, mut back) = ([0; xrs::OLD_RECORD_SIZE], [0; xrs::RECORD_SIZE]);
/// assert_eq!(xrs::card_to_old(&new, &mut old), Ok(()));
/// assert_eq!(old[..6], [3, 4, 0, 1, 2, 3]);
/// assert_eq!(xrs::card_to_new(&old, &mut back), Ok(()));
/// assert_eq!(back, new);
///
/// new[1] = 5;
/// assert_eq!(xrs::card_to_old(&new, &mut old), Err(xrs::Refusal::FourErasures));
/// ```
pub fn card_to_old(card: &[u8], out: &mut [u8]) -> Result<(), Refusal> {
    unpack(unsafe { raw::xrs_card_to_old(card.as_ptr(), card.len(), out.as_mut_ptr(), out.len()) }).map(|_| ())
}

/// A walk restores a card by steps of up to 16 records, so that one may look at a record meanwhile. This is how far it has come. A card of
/// N records, blank slots and a short last piece included, is done after N / 16 steps, rounded up, and then each record is as if it had
/// been restored alone.
///
/// ```
/// let mut card = vec![0; 20 * xrs::RECORD_SIZE];
/// for record in card.chunks_mut(xrs::RECORD_SIZE) {
///     record[..7].copy_from_slice(&[3, 0, 255, 255, 255, 255, 255]);
///     record[7 + 11] = 5; // a wrong symbol
/// }
/// let mut walk = xrs::Walk::begin(&card);
/// assert_eq!(walk.step(&mut card), Ok(()));
/// assert_eq!(walk.next, 17);
///
/// let mut row = [255; xrs::ROW_SIZE];
/// assert_eq!(xrs::look(&card, 20, &mut row), Ok(())); // not restored yet, but read as if it were
/// assert_eq!(row, [0; xrs::ROW_SIZE]);
///
/// while !walk.is_done() {
///     walk.step(&mut card).unwrap();
/// }
/// assert_eq!(walk.next, 21);
/// assert_eq!(card[19 * xrs::RECORD_SIZE + 7..], [0; 132]);
/// assert_eq!(walk.step(&mut card[1..]), Err(xrs::Refusal::Length)); // another card
/// ```
#[derive(Clone, Copy, Debug, PartialEq, Eq)]
pub struct Walk {
    /// The length of the card that the walk began with.
    pub length: u64,
    /// The number of the next record, counted from 1; at the end, one more than the card has.
    pub next: u64,
}

impl Walk {
    /// A walk over this card, before its first step.
    pub fn begin(card: &[u8]) -> Walk {
        Walk { length: card.len() as u64, next: 1 }
    }

    /// Is there no further record?
    pub fn is_done(&self) -> bool {
        let size = RECORD_SIZE as u64;
        self.next > self.length / size + u64::from(self.length % size > 0)
    }

    /// Restores the next 16 records of the card in their order, fewer only at its end. Records that are refused and blank slots count, and
    /// stay as they are. After the end a step changes nothing. Refused where the card has not the length that the walk began with, and
    /// where the next record is not 1 to one more than the card has; the walk then stays as it is.
    pub fn step(&mut self, card: &mut [u8]) -> Result<(), Refusal> {
        unpack(unsafe { raw::xrs_walk_step(self.length, &mut self.next, card.as_mut_ptr(), card.len()) }).map(|_| ())
    }
}

/// The symbols that `look` gives: those of a word of width 7; behind a shorter word stand zeros.
pub const ROW_SIZE: usize = 132;

/// Writes the symbols of the record with this number, counted from 1, into `row`: those that `restore_record` would give it. The card stays
/// as it is. During a walk over the card it makes no difference whether the record was restored already.
///
/// ```
/// let mut card = [0; xrs::RECORD_SIZE];
/// card[..7].copy_from_slice(&[3, 1, 0, 255, 255, 255, 255]);
/// card[7] = 200; // at the mark
/// let mut row = [255; xrs::ROW_SIZE];
/// assert_eq!(xrs::look(&card, 1, &mut row), Ok(()));
/// assert_eq!(row, [0; xrs::ROW_SIZE]);
/// assert_eq!(xrs::look(&card, 2, &mut row), Err(xrs::Refusal::RecordNumber));
/// assert_eq!(xrs::look(&[255; xrs::RECORD_SIZE], 1, &mut row), Err(xrs::Refusal::Width)); // a blank slot
/// ```
pub fn look(card: &[u8], number: u64, row: &mut [u8]) -> Result<(), Refusal> {
    unpack(unsafe { raw::xrs_look(card.as_ptr(), card.len(), number, row.as_mut_ptr(), row.len()) }).map(|_| ())
}

/// The rewrites that a dock of four bays has left since its last charge. A bay that restores a record whose bytes change pays with one of
/// its own, or with a common one where it has none left. A record that stays as it is, a refused one and a blank slot cost none.
///
/// ```
/// let mut left = xrs::Counts::default(); // none: the dock was never charged
/// left.charge().unwrap();
/// assert_eq!(left, xrs::Counts { own: [100; 4], common: 600 });
///
/// let mut record = [0; xrs::RECORD_SIZE];
/// record[..7].copy_from_slice(&[3, 0, 255, 255, 255, 255, 255]);
/// record[7] = 5; // a wrong symbol
/// assert_eq!(left.restore(2, &mut record), Ok(1));
/// assert_eq!(left.restore(2, &mut record), Ok(0)); // nothing to rewrite
/// assert_eq!(left.own, [100, 100, 99, 100]);
///
/// record[7] = 5;
/// assert_eq!(xrs::Counts::default().restore(2, &mut record), Err(xrs::Refusal::Rewrite));
/// assert_eq!(left.restore(4, &mut record), Err(xrs::Refusal::Bay));
/// ```
#[derive(Clone, Copy, Debug, Default, PartialEq, Eq)]
pub struct Counts {
    /// Those of bays 0 to 3.
    pub own: [u16; 4],
    /// Those that go to whoever comes first.
    pub common: u16,
}

impl Counts {
    /// Hands the five counts to a call, as a pointer and their number, and takes what it leaves.
    fn lend(&mut self, call: impl FnOnce(*mut u16, usize) -> u32) -> Result<u32, Refusal> {
        let [a, b, c, d] = self.own;
        let mut left = [a, b, c, d, self.common];
        let packed = call(left.as_mut_ptr(), left.len());
        let [own @ .., common] = left;
        *self = Counts { own, common };
        unpack(packed)
    }

    /// Sets all counts afresh: 100 for each bay, and 600 common ones.
    pub fn charge(&mut self) -> Result<(), Refusal> {
        self.lend(|left, length| unsafe { raw::xrs_charge(left, length) }).map(|_| ())
    }

    /// `restore_record` at a bay, 0 to 3, which pays for the rewrite. Where none is left, own or common, the call is refused, and record
    /// and counts stay as they are. That is asked last, and only where the record would change.
    pub fn restore(&mut self, bay: u8, record: &mut [u8]) -> Result<u8, Refusal> {
        let (bytes, size) = (record.as_mut_ptr(), record.len());
        self.lend(|left, length| unsafe { raw::xrs_bay_restore(bay, left, length, bytes, size) }).map(|count| count as u8)
    }

    /// `restore_record_within` at a bay, in the same way.
    pub fn restore_within(&mut self, bay: u8, record: &mut [u8], reach: u8) -> Result<u8, Refusal> {
        let (bytes, size) = (record.as_mut_ptr(), record.len());
        self.lend(|left, length| unsafe { raw::xrs_bay_restore_within(bay, left, length, bytes, size, reach) }).map(|count| count as u8)
    }
}

/// The symbols of a day sheet, c_0 to c_99: the compressor starts in each quarter hour, then year, month, day and pump.
pub const SHEET_SIZE: usize = 100;

/// The quarter hours of a day, in standard time: the symbols below this are the starts in each, and 127 means 127 or more.
pub const SHEET_QUARTERS: usize = 96;

/// Where the year stands, less 2000.
pub const SHEET_YEAR: usize = 96;

/// Where the month stands, 1 to 12.
pub const SHEET_MONTH: usize = 97;

/// Where the day stands, from 1 on.
pub const SHEET_DAY: usize = 98;

/// Where the pump stands, 0 to 127.
pub const SHEET_PUMP: usize = 99;

/// Writes the day sheet that has these symbols into `word`: a codeword of width 7 that holds them, and zeros behind them.
///
/// ```
/// let mut symbols = [0; xrs::SHEET_SIZE];
/// symbols[30] = 4; // four starts from 7:30 on
/// symbols[xrs::SHEET_YEAR..].copy_from_slice(&[24, 2, 29, 5]); // 29 February 2024, pump 5
/// let mut word = [255; 132];
/// assert_eq!(xrs::write_sheet(7, &symbols, &mut word), Ok(()));
/// assert_eq!(word[5..105], symbols);
/// assert_eq!(word[105..], [0; 27]);
///
/// symbols[xrs::SHEET_YEAR] = 100; // 2100 is no leap year
/// assert_eq!(xrs::write_sheet(7, &symbols, &mut word), Err(xrs::Refusal::Date));
/// ```
pub fn write_sheet(width: u8, symbols: &[u8], word: &mut [u8]) -> Result<(), Refusal> {
    unpack(unsafe { raw::xrs_write_sheet(width, symbols.as_ptr(), symbols.len(), word.as_mut_ptr(), word.len()) }).map(|_| ())
}

/// Writes the symbols of the day sheet `word` into `symbols`.
///
/// ```
/// let mut data = [0; 127];
/// data[96..100].copy_from_slice(&[24, 2, 29, 5]);
/// let (mut word, mut symbols) = ([0; 132], [255; xrs::SHEET_SIZE]);
/// xrs::encode(7, &data, &mut word).unwrap();
/// assert_eq!(xrs::read_sheet(7, &word, &mut symbols), Ok(()));
/// assert_eq!(symbols, data[..100]);
///
/// data[126] = 1;
/// xrs::encode(7, &data, &mut word).unwrap();
/// assert_eq!(xrs::read_sheet(7, &word, &mut symbols), Err(xrs::Refusal::Unused));
/// assert_eq!(xrs::read_sheet(5, &[0; 36], &mut symbols), Err(xrs::Refusal::SheetWidth));
/// ```
pub fn read_sheet(width: u8, word: &[u8], symbols: &mut [u8]) -> Result<(), Refusal> {
    unpack(unsafe { raw::xrs_read_sheet(width, word.as_ptr(), word.len(), symbols.as_mut_ptr(), symbols.len()) }).map(|_| ())
}

/// Whose sheet: the one by the pump's controller, or the one by the meter cupboard.
#[derive(Clone, Copy, Debug, PartialEq, Eq)]
pub enum Side {
    /// The pump's controller.
    Controller,
    /// The meter cupboard.
    Cupboard,
}

/// Two sheets of one pump and day side by side.
#[derive(Clone, Copy, Debug, PartialEq, Eq)]
pub struct Comparison<'a> {
    /// For each quarter hour 0 where the counts are equal, 1 where the controller's is higher, 2 where the cupboard's is.
    pub signs: [u8; SHEET_QUARTERS],
    /// The quarter hours with equal counts. The three totals make 96.
    pub equal: u8,
    /// Those in which the controller's count is higher.
    pub controller_higher: u8,
    /// Those in which the cupboard's count is higher.
    pub cupboard_higher: u8,
    /// The sheet with fewer unmarked places changed; the controller's where they are as many.
    pub chosen: Side,
    /// The chosen record's part of its card, as it was lent and not repaired.
    pub part: &'a [u8],
}

/// Compares two sheets of one day, each a record of its card, counted from 1. The records are restored in a copy and read as `read_sheet`
/// reads; both cards stay as they are. A number that is none of its card is refused first; then the controller's refusal comes before the
/// cupboard's.
///
/// ```
/// let mut symbols = [0; xrs::SHEET_SIZE];
/// symbols[xrs::SHEET_YEAR..].copy_from_slice(&[24, 2, 29, 5]);
/// let mut controller = [0; xrs::RECORD_SIZE];
/// controller[..7].copy_from_slice(&[7, 0, 255, 255, 255, 255, 255]);
/// let mut cupboard = controller;
/// symbols[30] = 4;
/// xrs::write_sheet(7, &symbols, &mut controller[7..]).unwrap();
/// symbols[30] = 3;
/// xrs::write_sheet(7, &symbols, &mut cupboard[7..]).unwrap();
/// controller[7] ^= 1; // a wrong symbol
///
/// let compared = xrs::compare_sheets(&controller, 1, &cupboard, 1).unwrap();
/// assert_eq!(compared.signs[30], 1);
/// assert_eq!((compared.equal, compared.controller_higher, compared.cupboard_higher), (95, 1, 0));
/// assert_eq!(compared.chosen, xrs::Side::Cupboard);
/// assert_eq!(compared.part, cupboard);
/// assert_eq!(xrs::compare_sheets(&controller, 1, &cupboard, 2), Err(xrs::Refusal::RecordNumber));
/// ```
pub fn compare_sheets<'a>(controller: &'a [u8], controller_number: u64, cupboard: &'a [u8], cupboard_number: u64) -> Result<Comparison<'a>, Refusal> {
    let mut signs = [0; SHEET_QUARTERS];
    let packed = unsafe {
        raw::xrs_compare_sheets(
            controller.as_ptr(),
            controller.len(),
            controller_number,
            cupboard.as_ptr(),
            cupboard.len(),
            cupboard_number,
            signs.as_mut_ptr(),
            signs.len(),
        )
    };
    let [side, equal, controller_higher, cupboard_higher, ..] = unpack_bytes(packed)?;
    let chosen = if side == 1 { Side::Controller } else { Side::Cupboard };
    let part = compare_part(controller, controller_number, cupboard, cupboard_number)?;
    Ok(Comparison { signs, equal, controller_higher, cupboard_higher, chosen, part })
}

/// The chosen record's part of its card, as it was lent: the `part` of `compare_sheets`, with its refusals. The library says on which card it
/// lies, where it begins and how long it is.
///
/// ```
/// let mut symbols = [0; xrs::SHEET_SIZE];
/// symbols[xrs::SHEET_YEAR..].copy_from_slice(&[24, 2, 29, 5]);
/// let mut card = [255; 2 * xrs::RECORD_SIZE]; // the first slot is blank
/// card[xrs::RECORD_SIZE..][..2].copy_from_slice(&[7, 0]);
/// xrs::write_sheet(7, &symbols, &mut card[xrs::RECORD_SIZE + 7..]).unwrap();
/// let mut cupboard = card;
/// cupboard[xrs::RECORD_SIZE + 7] ^= 1; // a wrong symbol
///
/// let part = xrs::compare_part(&card, 2, &cupboard, 2).unwrap();
/// assert_eq!(part.as_ptr(), card[xrs::RECORD_SIZE..].as_ptr());
/// assert_eq!(part.len(), xrs::RECORD_SIZE);
/// assert_eq!(xrs::compare_part(&card, 1, &cupboard, 2), Err(xrs::Refusal::Width));
/// ```
pub fn compare_part<'a>(controller: &'a [u8], controller_number: u64, cupboard: &'a [u8], cupboard_number: u64) -> Result<&'a [u8], Refusal> {
    let (mut offset, mut size) = (0, 0);
    let side = unpack(unsafe {
        raw::xrs_compare_part(
            controller.as_ptr(),
            controller.len(),
            controller_number,
            cupboard.as_ptr(),
            cupboard.len(),
            cupboard_number,
            &mut offset,
            &mut size,
        )
    })?;
    let card = if side == 1 { controller } else { cupboard };
    Ok(card.get(offset as usize..).and_then(|rest| rest.get(..size as usize)).unwrap_or_default())
}

/// The starts of one pump in a window of the day. Without sheets all is 0.
#[derive(Clone, Copy, Debug, Default, PartialEq, Eq)]
pub struct Pump {
    /// The day sheets that were read.
    pub sheets: u64,
    /// The sum of the starts in the window. A count of 127, which means 127 or more, enters as 127.
    pub sum: u64,
    /// The number of counts of 127 in the window.
    pub full: u64,
    /// The highest count of one quarter hour in the window.
    pub highest: u8,
    /// Its earliest date: the year less 2000, the month and the day.
    pub date: [u8; 3],
    /// The sum's mean per sheet, rounded down.
    pub quotient: u64,
    /// What is then left of the sum.
    pub remainder: u64,
}

/// What `window` tells of a card. The sheets of all pumps, the refused and the blank records are the records looked at.
#[derive(Clone, Debug, PartialEq, Eq)]
pub struct Report {
    /// Pumps 0 to 127.
    pub pumps: [Pump; 128],
    /// The records that were refused or are no day sheets.
    pub refused: u64,
    /// The blank slots.
    pub blank: u64,
    /// Is there a record behind the 1,000,000 that are looked at?
    pub further: bool,
}

/// The numbers of a pump in the report of `xrs_window`.
const PUMP_NUMBERS: usize = 9;

/// The starts of each pump over a card, in the quarter hours from `first` on and before `end`. Records are read as restored in a copy; the
/// card stays as it is. At most 1,000,000 records are looked at, blank ones included. The first quarter hour must be below the end, and the
/// end at most 96.
///
/// ```
/// let mut symbols = [0; xrs::SHEET_SIZE];
/// symbols[30] = 4; // four starts from 7:30 on
/// symbols[31] = 127; // 127 or more in the next quarter hour
/// symbols[xrs::SHEET_YEAR..].copy_from_slice(&[24, 2, 29, 5]);
/// let mut card = [255; 2 * xrs::RECORD_SIZE]; // the second slot is blank
/// card[..2].copy_from_slice(&[7, 0]);
/// xrs::write_sheet(7, &symbols, &mut card[7..xrs::RECORD_SIZE]).unwrap();
///
/// let report = xrs::window(&card, 28, 36).unwrap(); // from 7:00 to 9:00
/// let pump = report.pumps[5];
/// assert_eq!((pump.sheets, pump.sum, pump.full), (1, 131, 1));
/// assert_eq!((pump.highest, pump.date), (127, [24, 2, 29]));
/// assert_eq!((report.refused, report.blank, report.further), (0, 1, false));
/// assert_eq!(xrs::window(&card, 30, 31).unwrap().pumps[5].sum, 4);
/// assert_eq!(xrs::window(&card, 30, 30), Err(xrs::Refusal::Window));
/// ```
pub fn window(card: &[u8], first: u8, end: u8) -> Result<Report, Refusal> {
    let mut numbers = [0; 128 * PUMP_NUMBERS + 3];
    unpack(unsafe { raw::xrs_window(card.as_ptr(), card.len(), first, end, numbers.as_mut_ptr(), numbers.len()) })?;
    let [rows @ .., refused, blank, further] = numbers;
    let pumps = std::array::from_fn(|pump| {
        let [sheets, sum, full, highest, year, month, day, quotient, remainder] = std::array::from_fn(|k| rows[PUMP_NUMBERS * pump + k]);
        Pump { sheets, sum, full, highest: highest as u8, date: [year, month, day].map(|part| part as u8), quotient, remainder }
    });
    Ok(Report { pumps, refused, blank, further: further == 1 })
}

/// The examples in Rust of the documents, as doc tests.
#[cfg(doctest)]
mod documents {
    #[doc = include_str!("../../README.md")]
    struct Readme;

    #[doc = include_str!("../../docs/GUIDE.md")]
    struct Guide;
}

#[cfg(test)]
mod tests {
    use super::*;

    #[test]
    fn a_number_that_is_not_known_is_a_case_of_its_own() {
        for number in 1..=255 {
            let refusal = Refusal::from_number(number).expect("a refusal");
            assert_eq!(refusal.number(), number);
            // Document 01 has the numbers up to 10, document 02 those up to 21.
            assert_eq!(refusal == Refusal::Unknown(number), number > 21, "{refusal:?}");
            for value in [0, 1, 0xFF_FFFF] {
                assert_eq!(unpack(256 * value + number as u32), Err(refusal));
                assert_eq!(unpack_bytes(256 * value as u64 + number as u64), Err(refusal));
            }
        }
        assert_eq!(Refusal::from_number(0), None);
        assert_eq!(Refusal::Unknown(77).to_string(), "refused with the number 77, which is not known here");
    }

    #[test]
    fn an_accepted_answer_is_its_value() {
        for value in [0, 1, 2, 127, 0xFF_FFFF] {
            assert_eq!(unpack(256 * value), Ok(value));
        }
        assert_eq!(unpack_bytes(0x0706_0504_0302_0100), Ok([1, 2, 3, 4, 5, 6, 7]));
    }
}

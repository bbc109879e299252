//! Day sheets, as document 02 describes them. A date exists where it is one of the days counted from 1 January 2000 on.

use super::once::Once;
use super::{ask, encode, places, syndromes};
use std::collections::HashSet;

/// Symbols of a sheet.
pub const SIZE: usize = 100;

/// The days of 2000 to 2127: 32 years divisible by 4, and 2100 is no leap year.
pub const DAYS: usize = 128 * 365 + 31;

/// Year less 2000, month and day of a day counted from 1 January 2000, in the Gregorian calendar. Years are taken to begin in March, so
/// that a leap day is the last of its year; the months from there on have 153 days in each five.
fn date(day: usize) -> [u8; 3] {
    let from_march = day + 306; // from 1 March 1999 on
    let mut year = 1999;
    let mut rest = from_march;
    let ends_with_leap_day = |year: usize| (year + 1) % 4 == 0 && ((year + 1) % 100 != 0 || (year + 1) % 400 == 0);
    loop {
        let length = 365 + ends_with_leap_day(year) as usize;
        if rest < length {
            break;
        }
        rest -= length;
        year += 1;
    }
    let month = (5 * rest + 2) / 153;
    let day = rest - (153 * month + 2) / 5 + 1;
    let (year, month) = if month < 10 { (year, month + 3) } else { (year + 1, month - 9) };
    [(year - 2000) as u8, month as u8, day as u8]
}

/// Question 12.
pub fn exists(year: u8, month: u8, day: u8) -> bool {
    static DATES: Once<HashSet<[u8; 3]>> = Once::new();
    DATES.get(|| (0..DAYS).map(date).collect()).contains(&[year, month, day])
}

/// Questions 11 and 12.
fn ask_sheet(width: u8, symbols: &[u8]) -> Result<(), u8> {
    match () {
        _ if width != 7 => Err(11),
        _ if !exists(symbols[96], symbols[97], symbols[98]) => Err(12),
        _ => Ok(()),
    }
}

/// The day sheet that has these symbols, for a lent word of this length.
pub fn write(width: u8, symbols: &[u8], word_length: usize) -> Result<Vec<u8>, u8> {
    ask(width, || word_length == places(width) && symbols.len() == SIZE, symbols)?;
    ask_sheet(width, symbols)?;
    let mut data = symbols.to_vec();
    data.resize(127, 0);
    encode(7, &data, 132)
}

/// The symbols of a day sheet, for a lent slice of this length.
pub fn read(width: u8, word: &[u8], symbols_length: usize) -> Result<Vec<u8>, u8> {
    ask(width, || word.len() == places(width) && symbols_length == SIZE, word)?;
    if syndromes(width, word) != [0; 5] {
        return Err(9);
    }
    ask_sheet(width, &word[5..])?;
    if word[105..].iter().any(|&symbol| symbol != 0) {
        return Err(13);
    }
    Ok(word[5..105].to_vec())
}

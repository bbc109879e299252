//! Request (d): the sums of a word over its unmarked places.

use super::{search::ask, syndromes};

/// The five sums, a marked place counting as 0, or the refusal number.
pub fn sums(width: u8, word: &[u8], marks: &[u8]) -> Result<[u8; 5], u8> {
    ask(width, word, marks)?;
    let unmarked: Vec<u8> = (0..).zip(word).map(|(p, &symbol)| if marks.contains(&p) { 0 } else { symbol }).collect();
    Ok(syndromes(width, &unmarked))
}

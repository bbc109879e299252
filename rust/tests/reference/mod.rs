//! An independent implementation, written from documents 01 and 02 and sharing no code or table with the library. A refusal is its number.
#![allow(dead_code)] // an example uses its part

pub mod card;
pub mod compare;
pub mod dock;
pub mod masked;
pub mod once;
pub mod search;
pub mod sheet;
pub mod walk;
pub mod window;

/// The widths of the code.
pub const WIDTHS: [u8; 4] = [3, 4, 5, 7];

/// Those of document 01, at which the distance is 5.
pub const ODD_WIDTHS: [u8; 3] = [3, 5, 7];

/// The reduction polynomial of a width.
pub fn modulus(width: u8) -> Option<u32> {
    match width {
        3 => Some(0b1011),
        4 => Some(0b10011),
        5 => Some(0b100101),
        7 => Some(0b10001001),
        _ => None,
    }
}

/// The product of the polynomials, all digits first, then reduced from the top.
pub fn multiply(width: u8, a: u8, b: u8) -> u8 {
    let modulus = modulus(width).expect("a width of the field");
    let mut long = 0u32;
    for digit in 0..8 {
        if b >> digit & 1 == 1 {
            long ^= (a as u32) << digit;
        }
    }
    for degree in (width as u32..16).rev() {
        if long >> degree & 1 == 1 {
            long ^= modulus << (degree - width as u32);
        }
    }
    long as u8
}

/// A power, one factor after the other.
pub fn raise(width: u8, a: u8, e: u16) -> u8 {
    (0..e).fold(1, |product, _| multiply(width, product, a))
}

/// The inverse, by search.
pub fn invert(width: u8, a: u8) -> Option<u8> {
    (0..=(1u16 << width) - 1).map(|b| b as u8).find(|&b| multiply(width, a, b) == 1)
}

/// q, the number of symbols.
pub fn order(width: u8) -> usize {
    1 << width
}

/// n, the number of places of a word.
pub fn places(width: u8) -> usize {
    order(width) + 4
}

/// The number of data symbols.
pub fn items(width: u8) -> usize {
    order(width) - 1
}

/// The least number of places at which two codewords differ.
pub fn distance(width: u8) -> usize {
    5 - (width == 4) as usize
}

/// The field sum over i of α^(k·i) times c_i, each power from the one before.
pub fn weighted(width: u8, data: &[u8], k: usize) -> u8 {
    let step = raise(width, 2, k as u16);
    let powers = std::iter::successors(Some(1), |&power| Some(multiply(width, power, step)));
    data.iter().zip(powers).fold(0, |sum, (&c, power)| sum ^ multiply(width, power, c))
}

/// The five syndromes of a word, by equation (11) of document 003.
pub fn syndromes(width: u8, word: &[u8]) -> [u8; 5] {
    std::array::from_fn(|k| word[k] ^ weighted(width, &word[5..], k))
}

/// Questions 1, 2 and 7 in their order; whether the lengths are right is asked only at a width of the field.
fn ask(width: u8, lengths: impl Fn() -> bool, symbols: &[u8]) -> Result<(), u8> {
    if modulus(width).is_none() {
        Err(1)
    } else if !lengths() {
        Err(2)
    } else if symbols.iter().any(|&symbol| symbol as usize >= order(width)) {
        Err(6)
    } else {
        Ok(())
    }
}

/// The codeword of the data, for a lent word of this length.
pub fn encode(width: u8, data: &[u8], word_length: usize) -> Result<Vec<u8>, u8> {
    ask(width, || word_length == places(width) && data.len() == items(width), data)?;
    Ok((0..5).map(|k| weighted(width, data, k)).chain(data.iter().copied()).collect())
}

/// Is the word a codeword?
pub fn is_codeword(width: u8, word: &[u8]) -> Result<bool, u8> {
    ask(width, || word.len() == places(width), word)?;
    Ok(syndromes(width, word) == [0; 5])
}

/// The data of a codeword, for lent data of this length.
pub fn read_data(width: u8, word: &[u8], data_length: usize) -> Result<Vec<u8>, u8> {
    ask(width, || word.len() == places(width) && data_length == items(width), word)?;
    if syndromes(width, word) != [0; 5] {
        return Err(9);
    }
    Ok(word[5..].to_vec())
}

//! A restorer by search, which solves no equations. The errors that may have happened are cut into two parts of at most three places each.
//! The syndromes of all first parts stand in a table, in which the syndromes that a second part leaves over are looked up.

use super::once::Once;
use super::{modulus, multiply, order, places, raise, WIDTHS};
use std::collections::HashMap;
use std::hash::{BuildHasherDefault, Hasher};

/// The most marks that question 3 lets pass.
pub fn most_marks(width: u8) -> usize {
    match width {
        4 => 3,
        _ => 5,
    }
}

/// r, the most silent wrong places that are undone beside so many marks.
pub fn radius(width: u8, marks: usize) -> usize {
    let all: &[usize] = if width == 4 { &[1, 1, 0, 0] } else { &[2, 1, 1, 0, 0, 0] };
    all[marks]
}

/// The restored word with the number of changes, or the refusal number.
pub fn restore(width: u8, word: &[u8], marks: &[u8]) -> Result<(u8, Vec<u8>), u8> {
    restore_at(width, word, marks, None)
}

/// The same at a reach, request (h); who names none gets r.
pub fn restore_at(width: u8, word: &[u8], marks: &[u8], reach: Option<u8>) -> Result<(u8, Vec<u8>), u8> {
    ask(width, word, marks)?;
    let longest = radius(width, marks.len());
    let reach = reach.map_or(longest, usize::from);
    if reach > longest {
        return Err(16);
    }
    let restored = match decoder(width).near(word, marks, reach) {
        Near::None => return Err(7),
        Near::One(codeword) => codeword,
        Near::Several => return Err(14),
    };
    let changed = (0..word.len()).filter(|&p| restored[p] != word[p] && !marks.contains(&(p as u8))).count();
    Ok((changed as u8, restored))
}

/// Questions 1, 2, 3, 5, 6 and 7.
pub fn ask(width: u8, word: &[u8], marks: &[u8]) -> Result<(), u8> {
    if modulus(width).is_none() {
        return Err(1);
    }
    let n = places(width);
    let twice = |i: usize| marks[..i].contains(&marks[i]);
    let too_large = |p: usize| word[p] as usize >= order(width) && !marks.contains(&(p as u8));
    match () {
        _ if word.len() != n => Err(2),
        _ if marks.len() > most_marks(width) => Err(3),
        _ if marks.iter().any(|&mark| mark as usize >= n) => Err(4),
        _ if (0..marks.len()).any(twice) => Err(5),
        _ if (0..n).any(too_large) => Err(6),
        _ => Ok(()),
    }
}

/// Five syndromes, eight bits each.
type Syndromes = u64;

/// Symbols that are added at three places. The symbol 0 changes nothing.
type Part = [(u8, u8); 3];

const NOTHING: Part = [(0, 0); 3];

/// Parts by their syndromes.
type Table = HashMap<Syndromes, Part, BuildHasherDefault<Spread>>;

/// One product spreads the syndromes well enough, and is quick: a word of width 7 with five marks takes two million lookups.
#[derive(Default)]
struct Spread(u64);

impl Hasher for Spread {
    fn write(&mut self, _: &[u8]) {
        unreachable!("syndromes are one number");
    }

    fn write_u64(&mut self, syndromes: u64) {
        let product = syndromes.wrapping_mul(0x9E37_79B9_7F4A_7C15);
        self.0 = product ^ product >> 32;
    }

    fn finish(&self) -> u64 {
        self.0
    }
}

/// The codewords that are near.
enum Near {
    None,
    One(Vec<u8>),
    Several,
}

/// The search at a width, made once.
fn decoder(width: u8) -> &'static Decoder {
    static DECODERS: [Once<Decoder>; WIDTHS.len()] = [Once::new(), Once::new(), Once::new(), Once::new()];
    let at = WIDTHS.iter().position(|&other| other == width).expect("a width of the code");
    DECODERS[at].get(|| Decoder::new(width))
}

/// The search at one width.
struct Decoder {
    /// The syndromes of each symbol alone at each place.
    alone: Vec<Vec<Syndromes>>,
    /// Every part at one place or none.
    singles: Table,
}

impl Decoder {
    fn new(width: u8) -> Decoder {
        let alone: Vec<Vec<Syndromes>> = (0..places(width)).map(|p| alone_at(width, p)).collect();
        let mut singles = Table::default();
        for p in 0..alone.len() {
            singles.extend(parts(&alone, &[p as u8]));
        }
        Decoder { alone, singles }
    }

    /// The codewords that differ from the word at no more than `reach` places beside the marks. Two of these places leave no room for a
    /// mark, and one for two marks at most.
    fn near(&self, word: &[u8], marks: &[u8], reach: usize) -> Near {
        let mut unmarked = word.to_vec();
        for &mark in marks {
            unmarked[mark as usize] = 0;
        }
        let target = unmarked.iter().zip(&self.alone).fold(0, |sum, (&symbol, alone)| sum ^ alone[symbol as usize]);
        match reach {
            2 => meet(&unmarked, target, &self.singles, self.singles.iter().map(|(&syndromes, &part)| (syndromes, part))),
            1 => meet(&unmarked, target, &self.singles, parts(&self.alone, marks)),
            _ => {
                let (first, second) = marks.split_at(marks.len().min(2));
                meet(&unmarked, target, &parts(&self.alone, first).collect(), parts(&self.alone, second))
            }
        }
    }
}

/// The syndromes of each symbol at place p: a check symbol is in its own one, and c_i times α^(k·i) in number k.
fn alone_at(width: u8, p: usize) -> Vec<Syndromes> {
    let factors: [u8; 5] = std::array::from_fn(|k| if p < 5 { (p == k) as u8 } else { raise(width, 2, (k * (p - 5)) as u16) });
    (0..order(width)).map(|x| factors.iter().fold(0, |sum, &factor| sum << 8 | multiply(width, factor, x as u8) as Syndromes)).collect()
}

/// Every part at these places, three at most: the digits of a number are the symbols.
fn parts<'a>(alone: &'a [Vec<Syndromes>], at: &'a [u8]) -> impl Iterator<Item = (Syndromes, Part)> + 'a {
    let width = alone[0].len().trailing_zeros() as usize;
    (0..1usize << (width * at.len())).map(move |number| {
        let (mut syndromes, mut part) = (0, NOTHING);
        for (digit, &p) in at.iter().enumerate() {
            let x = number >> (width * digit) & ((1 << width) - 1);
            syndromes ^= alone[p as usize][x];
            part[digit] = (p, x as u8);
        }
        (syndromes, part)
    })
}

/// The words that come of the word with a first and a second part added whose syndromes together are the target.
fn meet(word: &[u8], target: Syndromes, firsts: &Table, seconds: impl Iterator<Item = (Syndromes, Part)>) -> Near {
    let mut found = None;
    for (syndromes, second) in seconds {
        if let Some(first) = firsts.get(&(target ^ syndromes)) {
            let mut sum = word.to_vec();
            for (p, x) in first.iter().chain(&second) {
                sum[*p as usize] ^= x;
            }
            if matches!(&found, Some(other) if *other != sum) {
                return Near::Several;
            }
            found = Some(sum);
        }
    }
    found.map_or(Near::None, Near::One)
}

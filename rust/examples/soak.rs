//! Restores a million worn words from a fixed seed. Prints how many, and how many came out wrong; ends with an error where one did. Each
//! word is restored by both methods, which must give the same answer and leave the same word.
//!
//! The words are sums of codewords by the reference, so each is known before its cells wear. Where no more than r symbols beside the
//! erasures are wrong, that codeword must come back, with their number; with five erasures there may be several. Otherwise the answer is
//! that of the reference at widths 3 and 4; at the others, where its search takes long, an accepted word must be a codeword that is near,
//! and a refused one as it was.

#[path = "../tests/reference/mod.rs"]
mod reference;
#[path = "../tests/tools/mod.rs"]
mod tools;

use reference::search::{self, most_marks, radius};
use reference::{places, syndromes};
use std::time::Instant;
use tools::wear::{codeword, spoiled, with_any_bytes};
use tools::Chance;
use xrs::Refusal;

const WORDS: usize = 1_000_000;

/// Of 20 words so many have this width: to try the places of the wide ones takes long.
const SHARES: [(u8, usize); 4] = [(3, 9), (4, 4), (5, 6), (7, 1)];

/// Codewords of a width, whose sums are codewords too.
struct Source {
    width: u8,
    words: Vec<Vec<u8>>,
}

impl Source {
    fn new(chance: &mut Chance, width: u8) -> Source {
        let words = (0..64).map(|_| codeword(chance, width)).collect();
        Source { width, words }
    }

    fn draw(&self, chance: &mut Chance) -> Vec<u8> {
        let mut sum = self.words[chance.below(64)].clone();
        for _ in 0..3 {
            let other = &self.words[chance.below(64)];
            sum.iter_mut().zip(other).for_each(|(a, b)| *a ^= b);
        }
        sum
    }
}

/// The number of unmarked places at which two words differ.
fn changes(a: &[u8], b: &[u8], marks: &[u8]) -> usize {
    (0..a.len()).filter(|&p| a[p] != b[p] && !marks.contains(&(p as u8))).count()
}

/// Is this answer right for the worn word, of which `clean` is the codeword?
fn is_right(width: u8, clean: &[u8], worn: &[u8], marks: &[u8], answer: Result<u8, Refusal>, after: &[u8]) -> bool {
    let wrong = changes(clean, worn, marks);
    let reach = radius(width, marks.len());
    if wrong <= reach && answer != Err(Refusal::Unique) {
        return answer == Ok(wrong as u8) && after == clean;
    }
    if width < 5 {
        return match search::restore(width, worn, marks) {
            Ok((count, near)) => answer == Ok(count) && after == near,
            Err(number) => answer.map_err(Refusal::number) == Err(number) && after == worn,
        };
    }
    match answer {
        Ok(count) => {
            let changed = changes(worn, after, marks);
            changed == count as usize && changed <= reach && syndromes(width, after) == [0; 5]
        }
        Err(Refusal::Correctable) => after == worn,
        Err(Refusal::Unique) => after == worn && marks.len() == 5,
        Err(_) => false,
    }
}

/// Wears a codeword, restores it by both methods, and tells whether the answers are right.
fn soak(chance: &mut Chance, source: &Source) -> bool {
    let width = source.width;
    let clean = source.draw(chance);
    let (marked, wrong) = (chance.below(1 + most_marks(width)), chance.below(4));
    let chosen = chance.places(marked + wrong, places(width));
    let (marks, others) = chosen.split_at(marked);
    let worn = spoiled(chance, width, &clean, others);
    let worn = with_any_bytes(chance, &worn, marks);
    let (mut after, mut tried) = (worn.clone(), worn.clone());
    let answer = xrs::restore_word(width, &mut after, marks);
    let same = xrs::restore_word_by_trials(width, &mut tried, marks) == answer && tried == after;
    same && is_right(width, &clean, &worn, marks, answer, &after)
}

fn main() {
    let mut chance = Chance::new();
    let began = Instant::now();
    let mut mismatches = 0;
    for (width, share) in SHARES {
        let source = Source::new(&mut chance, width);
        mismatches += (0..WORDS / 20 * share).filter(|_| !soak(&mut chance, &source)).count();
    }
    println!("soak: {WORDS} words, {mismatches} mismatches, {} s", began.elapsed().as_secs());
    std::process::exit((mismatches > 0) as i32);
}

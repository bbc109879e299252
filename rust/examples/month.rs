//! Writes the card examples/month.card to standard output: the day sheets of two pumps in January 2026, worn, always the same.
//!
//!     cargo run --example month > ../examples/month.card

use std::io::Write;

/// The pump of the heating, and that of the hot water.
pub const PUMPS: [u8; 2] = [3, 8];

/// Days and pumps whose sheets are too worn.
pub const REFUSED: [(u8, u8); 3] = [(6, 3), (15, 8), (24, 3)];

/// Slots behind the last sheet.
pub const BLANK: usize = 2;

/// The chance of a start of the heating, in hundredths, for each hour of the day.
const HEATING: [usize; 24] = [6, 5, 5, 6, 9, 18, 26, 22, 14, 9, 8, 7, 6, 7, 8, 11, 15, 22, 24, 21, 17, 14, 10, 8];

/// As often in a quarter hour a pump may start.
const CHANCES: usize = 12;

/// The generator xorshift64 from a fixed seed.
struct Chance(u64);

impl Chance {
    /// A number below `bound`, which is not 0.
    fn below(&mut self, bound: usize) -> usize {
        self.0 ^= self.0 << 13;
        self.0 ^= self.0 >> 7;
        self.0 ^= self.0 << 17;
        ((self.0 >> 32) as usize) % bound
    }

    /// Different places of a word.
    fn places(&mut self, count: usize) -> Vec<u8> {
        let mut found = Vec::new();
        while found.len() < count {
            let place = self.below(132) as u8;
            if !found.contains(&place) {
                found.push(place);
            }
        }
        found
    }
}

/// The heating starts mornings and evenings, from the 10th to the 16th it is cold, and on three afternoons it goes on and off without need.
fn heating(day: u8, quarter: usize) -> usize {
    match (day, quarter) {
        (20..=22, 52..=67) => 85,
        (10..=16, _) => 2 * HEATING[quarter / 4],
        _ => HEATING[quarter / 4],
    }
}

/// Hot water is drawn mornings, at noon and evenings.
fn hot_water(quarter: usize) -> usize {
    match quarter {
        25..=29 => 40,
        47..=50 => 20,
        73..=83 => 35,
        _ => 1,
    }
}

/// The counts of a day, its date and the pump.
fn symbols(chance: &mut Chance, day: u8, pump: u8) -> Vec<u8> {
    let rate = |quarter| if pump == PUMPS[0] { heating(day, quarter) } else { hot_water(quarter) };
    let mut symbols: Vec<u8> = (0..96).map(|quarter| (0..CHANCES).filter(|_| chance.below(100) < rate(quarter)).count() as u8).collect();
    symbols.extend([26, 1, day, pump]);
    symbols
}

/// The record of a sheet with so many wrong symbols, and so many erasures at which any bytes stand.
fn worn(chance: &mut Chance, symbols: &[u8], wrong: usize, erased: usize) -> Vec<u8> {
    let mut word = [0; 132];
    xrs::write_sheet(7, symbols, &mut word).expect("symbols of a sheet");
    let places = chance.places(wrong + erased);
    let (wrong, erasures) = places.split_at(wrong);
    wrong.iter().for_each(|&place| word[place as usize] ^= 1 + chance.below(127) as u8);
    erasures.iter().for_each(|&place| word[place as usize] = chance.below(256) as u8);
    let mut record = vec![7, erasures.len() as u8];
    record.extend(erasures);
    record.resize(7, 255);
    record.extend(word);
    record
}

/// The card: a sheet of each pump for each day, then blank slots.
pub fn card() -> Vec<u8> {
    let mut chance = Chance(0x9E37_79B9_7F4A_7C15);
    let mut card = Vec::new();
    for day in 1..=31 {
        for pump in PUMPS {
            let symbols = symbols(&mut chance, day, pump);
            let wrong = if REFUSED.contains(&(day, pump)) { 3 } else { chance.below(3) };
            let erased = if wrong < 2 { chance.below(3) } else { 0 };
            card.extend(worn(&mut chance, &symbols, wrong, erased));
        }
    }
    card.resize(card.len() + BLANK * xrs::RECORD_SIZE, 255);
    card
}

fn main() {
    std::io::stdout().write_all(&card()).expect("the card cannot be written");
}

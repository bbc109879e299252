//! An independent implementation of the library's trying method: erasures are unknowns, then at most r extra places are taken as
//! unknowns too, and each choice is one linear system, solved from nothing. It shares no code or table with the library, and only width 7
//! is served.

const ORDER: usize = 128;
const PLACES: usize = 132;
const CHECKS: usize = 5;
/// The most unknowns of a system.
const UNKNOWNS: usize = 4;

/// A row of a system: the coefficients of the unknowns, then the right side.
type Row = [u8; UNKNOWNS + 1];

pub struct Decoder {
    products: Vec<[u8; ORDER]>,
    inverses: [u8; ORDER],
    /// What a 1 at a place adds to each syndrome.
    columns: [[u8; CHECKS]; PLACES],
}

impl Decoder {
    pub fn new() -> Decoder {
        let products: Vec<[u8; ORDER]> = (0..ORDER).map(|a| std::array::from_fn(|b| slow_product(a as u8, b as u8))).collect();
        let mut inverses = [0; ORDER];
        for (a, row) in products.iter().enumerate().skip(1) {
            inverses[a] = row.iter().position(|&product| product == 1).expect("a symbol other than 0 has an inverse") as u8;
        }
        let mut columns = [[0; CHECKS]; PLACES];
        for (k, column) in columns[..CHECKS].iter_mut().enumerate() {
            column[k] = 1;
        }
        let mut point = 1; // α^i, and its powers 0 to 4 are the column of data symbol i
        for column in &mut columns[CHECKS..] {
            let mut power = 1;
            for entry in column.iter_mut() {
                *entry = power;
                power = products[power as usize][point as usize];
            }
            point = products[point as usize][2];
        }
        Decoder { products, inverses, columns }
    }

    fn product(&self, a: u8, b: u8) -> u8 {
        self.products[a as usize % ORDER][b as usize % ORDER]
    }

    /// Writes the near codeword in place of the word and answers the number of unmarked places changed; `None` where the input is bad or no
    /// codeword is near, and then nothing is written.
    pub fn restore(&self, word: &mut [u8; PLACES], marks: &[u8]) -> Option<u8> {
        let s = marks.len();
        if s > UNKNOWNS || marks.iter().enumerate().any(|(i, mark)| *mark as usize >= PLACES || marks[..i].contains(mark)) {
            return None;
        }
        // The syndromes, with 0 at the erasures.
        let mut right = [0; CHECKS];
        for (p, &symbol) in word.iter().enumerate() {
            if marks.contains(&(p as u8)) {
                continue;
            }
            if symbol as usize >= ORDER {
                return None;
            }
            for (sum, &factor) in right.iter_mut().zip(&self.columns[p]) {
                *sum ^= self.product(factor, symbol);
            }
        }
        if s == 0 && right == [0; CHECKS] {
            return Some(0);
        }
        let mut at = [0; UNKNOWNS];
        for (place, &mark) in at.iter_mut().zip(marks) {
            *place = mark as usize;
        }
        let found = (0..=(UNKNOWNS - s) / 2).find_map(|extra| self.search(&right, &mut at, s, s + extra, 0))?;
        let mut changed = 0;
        for (i, &p) in at.iter().enumerate().take(found.unknowns) {
            if i < s {
                word[p] = found.values[i];
            } else {
                word[p] ^= found.values[i];
                changed += (found.values[i] != 0) as u8;
            }
        }
        Some(changed)
    }

    /// Chooses the places `at[chosen..unknowns]`, none below `from` and none chosen already, and solves the system of each choice, until
    /// one has a solution.
    fn search(&self, right: &[u8; CHECKS], at: &mut [usize; UNKNOWNS], chosen: usize, unknowns: usize, from: usize) -> Option<Found> {
        if chosen == unknowns {
            return self.solve(right, &at[..unknowns]);
        }
        for p in from..PLACES {
            if !at[..chosen].contains(&p) {
                at[chosen] = p;
                let found = self.search(right, at, chosen + 1, unknowns, p + 1);
                if found.is_some() {
                    return found;
                }
            }
        }
        None
    }

    /// The symbols whose columns at the places add up to the right side.
    fn solve(&self, right: &[u8; CHECKS], at: &[usize]) -> Option<Found> {
        let mut rows: [Row; CHECKS] = [[0; UNKNOWNS + 1]; CHECKS];
        for (k, row) in rows.iter_mut().enumerate() {
            for (entry, &p) in row.iter_mut().zip(at) {
                *entry = self.columns[p][k];
            }
            row[UNKNOWNS] = right[k];
        }
        for i in 0..at.len() {
            let pivot = (i..CHECKS).find(|&k| rows[k][i] != 0)?;
            rows.swap(i, pivot);
            let inverse = self.inverses[rows[i][i] as usize % ORDER];
            let unit: Row = rows[i].map(|entry| self.product(inverse, entry));
            rows[i] = unit;
            for (k, row) in rows.iter_mut().enumerate() {
                let factor = row[i];
                if k != i && factor != 0 {
                    for (entry, &above) in row[i..].iter_mut().zip(&unit[i..]) {
                        *entry ^= self.product(factor, above);
                    }
                }
            }
        }
        // The rows without unknowns must say 0 = 0.
        if rows[at.len()..].iter().any(|row| row[UNKNOWNS] != 0) {
            return None;
        }
        Some(Found { unknowns: at.len(), values: std::array::from_fn(|i| if i < at.len() { rows[i][UNKNOWNS] } else { 0 }) })
    }
}

struct Found {
    unknowns: usize,
    values: [u8; UNKNOWNS],
}

/// The product modulo x^7 + x^3 + 1, digit by digit, for the table.
fn slow_product(a: u8, b: u8) -> u8 {
    (0..7).rev().fold(0u8, |sum, digit| {
        let double = sum << 1;
        let reduced = if double & 0x80 != 0 { double ^ 0x89 } else { double };
        reduced ^ if b >> digit & 1 == 1 { a } else { 0 }
    })
}

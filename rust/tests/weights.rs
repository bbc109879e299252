//! How often three errors give a wrong codeword: README.md has the percentages, and here they are counted. They are for the odd widths, without
//! erasures, with every pattern of three errors equally likely.
//!
//! A pattern gives a wrong codeword if and only if some codeword of weight 5 has the same symbols at its three places: that codeword, added to
//! the one that was written, is then two places away. Such a codeword of weight 5 is unique, since two of them would differ at no more than
//! four places. So each codeword of weight 5 accounts for ten patterns.
//!
//! The distance is 5, so any four columns of the check matrix are independent, and each dependent set of five columns belongs to exactly
//! q - 1 codewords of weight 5. The sets are counted with the reference's product; nothing of the library is called for it.

use crate::reference::{items, multiply, order, places, ODD_WIDTHS};

/// All five rows of the check matrix, as bits: in row k a data place with the locator x has x^k, and check place k has 1.
const ROWS: u8 = 0b11111;

/// The products of a width, by `first * order + second`.
fn products(width: u8) -> Vec<u8> {
    let q = order(width);
    (0..q * q).map(|k| multiply(width, (k / q) as u8, (k % q) as u8)).collect()
}

/// The determinant of the data places with these locators, over the rows in `rows`, of which there are as many. It is expanded along the
/// first column; in characteristic 2 the terms have no signs.
fn determinant(products: &[u8], q: usize, rows: u8, locators: &[u8]) -> u8 {
    let (first, others) = match locators.split_first() {
        Some((first, others)) => (*first as usize, others),
        None => return 1,
    };
    let (mut power, mut sum) = (1, 0);
    for row in 0..5 {
        if rows >> row & 1 == 1 {
            sum ^= products[power * q + determinant(products, q, rows & !(1 << row), others) as usize];
        }
        power = products[power * q + first] as usize;
    }
    sum
}

/// The sets that consist of `chosen` and `more` further locators above its last one, and have determinant 0 over these rows.
fn singular_sets(products: &[u8], q: usize, rows: u8, chosen: &mut Vec<u8>, more: u32) -> u64 {
    if more == 0 {
        return u64::from(determinant(products, q, rows, chosen) == 0);
    }
    let mut sets = 0;
    for locator in chosen[chosen.len() - 1] + 1..q as u8 {
        chosen.push(locator);
        sets += singular_sets(products, q, rows, chosen, more - 1);
        chosen.pop();
    }
    sets
}

/// The number of codewords of weight 5. Five places are some check places and `data` data places. They are dependent if and only if the
/// determinant of the data places, over the rows that have no check place, is 0. Five check places are independent, and so are five data
/// places, by Vandermonde. If every locator of a set is multiplied by one symbol other than 0, its determinant stays 0 or stays another
/// symbol. So it is enough to count the sets that contain the locator 1: in a set each of the `data` locators becomes 1 by one of the
/// q - 1 multiplications.
fn codewords_of_weight_five(width: u8) -> u64 {
    let (q, products) = (order(width), products(width));
    let mut sets = 0;
    for data in 1..=4u32 {
        for rows in (0..=ROWS).filter(|rows| rows.count_ones() == data) {
            let with_one = singular_sets(&products, q, rows, &mut vec![1], data - 1);
            assert_eq!(with_one * items(width) as u64 % u64::from(data), 0);
            sets += with_one * items(width) as u64 / u64::from(data);
        }
    }
    sets * items(width) as u64
}

/// The error patterns with exactly three errors.
fn patterns(width: u8) -> u64 {
    let n = places(width) as u64;
    n * (n - 1) * (n - 2) / 6 * (items(width) as u64).pow(3)
}

#[test]
fn readme_says_how_often_three_errors_go_wrong() {
    let codewords: Vec<u64> = ODD_WIDTHS.iter().map(|&width| codewords_of_weight_five(width)).collect();
    assert_eq!(codewords, [294, 115_320, 32_516_064]);
    let percent = |k: usize| 100.0 * (10 * codewords[k]) as f64 / patterns(ODD_WIDTHS[k]) as f64;
    let sentence = format!("{:.1} % of cases at width 3, {:.2} % at width 5 and {:.2} % at width 7", percent(0), percent(1), percent(2));
    let readme: Vec<&str> = include_str!("../../README.md").split_whitespace().collect();
    assert!(readme.join(" ").contains(&sentence), "README.md does not say: {sentence}");
}

/// The library's own encoder, on all data of width 3.
#[test]
fn codewords_of_weight_five_at_width_three() {
    let mut found = 0;
    for number in 0..8u32.pow(7) {
        let data: [u8; 7] = std::array::from_fn(|k| (number >> (3 * k) & 7) as u8);
        let mut word = [0; 12];
        xrs::encode(3, &data, &mut word).unwrap();
        found += u64::from(word.iter().filter(|&&symbol| symbol != 0).count() == 5);
    }
    assert_eq!(found, codewords_of_weight_five(3));
}

/// The library's own restorer, on every pattern of three errors at width 3. The zero word was written, so a word that is restored is restored
/// wrong. At reach 1 every pattern is refused.
#[test]
fn three_errors_at_width_three() {
    let triples = (0..12usize).flat_map(|a| (a + 1..12).flat_map(move |b| (b + 1..12).map(move |c| [a, b, c])));
    let errors = || (0..7 * 7 * 7).map(|k| [1 + k % 7, 1 + k / 7 % 7, 1 + k / 49]);
    let (mut tried, mut wrong) = (0, 0);
    for (triple, errors) in triples.flat_map(|triple| errors().map(move |errors| (triple, errors))) {
        let mut word = [0; 12];
        for (&place, error) in triple.iter().zip(errors) {
            word[place] = error as u8;
        }
        let refused = xrs::restore_word_within(3, &mut word, &[], 1).unwrap_err();
        assert_eq!(refused.number(), 7, "{triple:?}, {errors:?}");
        match xrs::restore_word(3, &mut word, &[]) {
            Ok(changed) => assert!(changed == 2 && word != [0; 12], "{triple:?}, {errors:?}"),
            Err(refused) => assert_eq!(refused.number(), 7, "{triple:?}, {errors:?}"),
        }
        tried += 1;
        wrong += u64::from(word.iter().filter(|&&symbol| symbol != 0).count() == 5);
    }
    assert_eq!((tried, wrong), (patterns(3), 10 * codewords_of_weight_five(3)));
}

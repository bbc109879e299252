//! Every symbol of the four fields against the reference, and every refusal of the field's calls.

use crate::{reference, tools};
use reference::WIDTHS;
use tools::BAD_WIDTHS;
use xrs::{inverse, power, product, sum, Refusal};

fn symbols(width: u8) -> std::ops::Range<u8> {
    0..1 << width
}

#[test]
fn sums_and_products_of_all_pairs() {
    for width in WIDTHS {
        for a in symbols(width) {
            for b in symbols(width) {
                assert_eq!(sum(width, a, b), Ok(a ^ b), "{a} + {b} at width {width}");
                assert_eq!(product(width, a, b), Ok(reference::multiply(width, a, b)), "{a} * {b} at width {width}");
            }
        }
    }
}

#[test]
fn inverses_of_all_symbols() {
    for width in WIDTHS {
        assert_eq!(inverse(width, 0), Err(Refusal::Nonzero));
        for a in symbols(width).skip(1) {
            assert_eq!(inverse(width, a).ok(), reference::invert(width, a), "1 / {a} at width {width}");
        }
    }
}

#[test]
fn powers_of_all_symbols() {
    for width in WIDTHS {
        let order = 1u16 << width;
        for a in symbols(width) {
            for e in [0, 1, 2, order - 2, order - 1, 1000, 65535] {
                assert_eq!(power(width, a, e), Ok(reference::raise(width, a, e)), "{a} to the power {e} at width {width}");
            }
        }
    }
}

#[test]
fn bad_widths_are_refused_before_bad_symbols() {
    for width in BAD_WIDTHS {
        for a in [0, 1, 8, 255] {
            assert_eq!(sum(width, a, 255), Err(Refusal::Width));
            assert_eq!(product(width, 255, a), Err(Refusal::Width));
            assert_eq!(power(width, a, 0), Err(Refusal::Width));
            assert_eq!(inverse(width, a), Err(Refusal::Width));
        }
    }
}

#[test]
fn bad_symbols_are_refused() {
    for width in WIDTHS {
        let order = 1u8 << width;
        for bad in [order, 255] {
            for good in [0, order - 1] {
                assert_eq!(sum(width, bad, good), Err(Refusal::Symbol));
                assert_eq!(sum(width, good, bad), Err(Refusal::Symbol));
                assert_eq!(product(width, bad, good), Err(Refusal::Symbol));
                assert_eq!(product(width, good, bad), Err(Refusal::Symbol));
            }
            assert_eq!(power(width, bad, 0), Err(Refusal::Symbol));
            assert_eq!(inverse(width, bad), Err(Refusal::Symbol));
        }
    }
}

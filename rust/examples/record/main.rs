//! Writes calls with the answers of the reference, from a fixed seed, for wrappers in other languages to be tested with: a line of JSON for
//! each. `python/tests/calls.jsonl` is what it writes. Bytes are in hexadecimal digits; `refusal` is 0 or the refusal's number, behind which
//! stands what an accepted call answers and leaves.

#[path = "../../tests/reference/mod.rs"]
mod reference;
#[path = "../../tests/tools/mod.rs"]
mod tools;

mod cards;
mod line;
mod words;

use tools::Chance;

fn main() {
    let mut chance = Chance::new();
    words::record(&mut chance);
    cards::record(&mut chance);
}

//! The tests against the reference as one program, so that the reference and what the tests share are compiled once. Each file is a module:
//! `cargo test walk::` runs one.

mod csv;
mod reference;
mod tools;

mod cardcompare;
mod cardconvert;
mod cardlist;
mod cardlook;
mod cardrestore;
mod cardstarts;
mod cardwrite;
mod code;
mod compare;
mod convert;
mod dock;
mod faults;
mod field;
mod outputs;
mod papers;
mod programs;
mod reach;
mod records;
mod restore;
mod sheet;
mod sheets;
mod slots;
mod syndromes;
mod trials;
mod walk;
mod weights;
mod window;

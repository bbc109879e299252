//! The packaged programs where calls of the system fail, are interrupted or move few bytes: each read and each write of a card of several
//! batches in turn, by the library of c/fault.c. What was written until then stays, a message tells why, and the status is 2.

use crate::{reference, tools};
use reference::card::{list, record_of, size, to_new, to_old, MARKS, OLD_MARKS, OLD_RECORD, RECORD};
use std::fs::{self, File};
use std::path::Path;
use tools::answers::{done, restored_card, words, LONGEST};
use tools::programs::{folder_with, Ended, Fault, Folder, Run, BATCH_SLOTS, EAGAIN, EINVAL, EIO, ENOSPC};
use tools::sheets::five_slots;
use tools::wear::{codeword, worn};
use tools::Chance;

const BATCH: usize = BATCH_SLOTS * RECORD;

/// The reads of a card of three batches, the last one not full: the fourth finds the end.
const READS: usize = 4;

/// The slots of a card of three batches.
const SLOTS: usize = 900;

/// Worn records of width 3, and a piece of one.
fn worn_card() -> Vec<u8> {
    let mut chance = Chance::new();
    let mut card: Vec<u8> = (0..=SLOTS).flat_map(|_| worn(&mut chance, 3)).collect();
    card.truncate(SLOTS * RECORD + 50);
    card
}

/// Records of which none is refused, with so many mark bytes, and a few sheets among them.
fn fine_card(marks: usize, slots: usize) -> Vec<u8> {
    let mut chance = Chance::new();
    let sheets = if marks == MARKS { five_slots().concat() } else { Vec::new() };
    let small = (0..slots).flat_map(|_| record_of(marks, 3, &codeword(&mut chance, 3), &[7]));
    sheets.into_iter().chain(small).take(slots * size(marks)).collect()
}

/// The programs, each with the operands for a card that is named last, or not at all.
const CALLS: [(&str, &[&str]); 5] =
    [("cardlist", &[]), ("cardcheck", &[]), ("cardrestore", &[]), ("cardconvert", &["to-old"]), ("cardstarts", &["0", "96"])];

/// A program on the file `card` of this folder.
fn run(folder: &Path, name: &str, operands: &[&str]) -> Run {
    Run::new(name, operands).argument("card").within(folder)
}

/// The end behind a call that failed.
fn failed(name: &str, out: impl Into<Vec<u8>>, file: &str, why: &str) -> Ended {
    Ended::new(2, out, format!("{name}: {file}: {why}\n"))
}

fn failed_read(name: &str, out: impl Into<Vec<u8>>) -> Ended {
    failed(name, out, "card", "Input/output error")
}

fn failed_write(name: &str, out: impl Into<Vec<u8>>) -> Ended {
    failed(name, out, "standard output", "No space left on device")
}

/// Lets each call of a kind fail in turn, of which there are so many and no more.
fn each(call: &str, calls: usize, error: i32, run: impl Fn() -> Run, wanted: impl Fn(usize) -> Ended) {
    for at in 1..=calls {
        assert_eq!(run().fault(Fault::error(call, at, error)).end(), wanted(at), "{call} {at} of {calls}");
    }
    let (_, faults) = run().fault(Fault::error(call, calls + 1, error)).end_counting();
    assert_eq!(faults, Some(0), "there are more calls of {call} than {calls}");
}

/// The part of a card that is read before this read of a batch.
fn before(card: &[u8], read: usize) -> &[u8] {
    &card[..card.len().min((read - 1) * BATCH)]
}

/// What was read is listed, and its total line ends the listing.
#[test]
fn each_read_of_a_listing() {
    let card = worn_card();
    let folder = folder_with("card", &card);
    each("read", READS, EIO, || run(&folder, "cardlist", &[]), |at| failed_read("cardlist", list(before(&card, at))));
    let wanted = |at| failed("cardlist", list(before(&card, at)), "standard input", "Input/output error");
    let open = || File::open(folder.join("card")).expect("the card");
    each("read", READS, EIO, || Run::new("cardlist", &[]).within(&folder).input(open()), wanted);
}

/// What was read is restored and written. There is no last line.
#[test]
fn each_read_of_a_restoring() {
    let card = worn_card();
    let folder = folder_with("card", &card);
    let wanted = |at| failed_read("cardrestore", restored_card(before(&card, at), LONGEST).0);
    each("read", READS, EIO, || run(&folder, "cardrestore", &[]), wanted);
}

/// Nothing is said of a card that was not read to its end, and above all not ok.
#[test]
fn each_read_of_a_check() {
    let folder = folder_with("card", &fine_card(MARKS, SLOTS));
    each("read", READS, EIO, || run(&folder, "cardcheck", &[]), |_| failed_read("cardcheck", ""));
}

/// The batch of the first refused record is the last that is read.
#[test]
fn each_read_of_a_check_with_a_refused_record() {
    let mut card = fine_card(MARKS, SLOTS);
    card[500 * RECORD] = 6;
    let folder = folder_with("card", &card);
    each("read", 2, EIO, || run(&folder, "cardcheck", &[]), |_| failed_read("cardcheck", ""));
}

#[test]
fn each_read_of_a_table() {
    let folder = folder_with("card", &fine_card(MARKS, SLOTS));
    each("read", READS, EIO, || run(&folder, "cardstarts", &["0", "96"]), |_| failed_read("cardstarts", ""));
}

/// A conversion, a card for it, and the card that comes of it.
fn conversions() -> [(&'static str, Folder, Vec<u8>); 2] {
    let (old, new) = (fine_card(OLD_MARKS, SLOTS), fine_card(MARKS, SLOTS));
    let (from_old, from_new) = (to_new(&old, SLOTS * RECORD), to_old(&new, SLOTS * OLD_RECORD));
    [("to-new", old, from_old), ("to-old", new, from_new)].map(|(word, card, out)| (word, folder_with(word, &card), out.expect("a good card")))
}

/// The part of a converted card that is written before this batch of 200 slots.
fn copied(out: &[u8], batch: usize) -> &[u8] {
    &out[..out.len().min(out.len() / SLOTS * 200 * (batch - 1))]
}

/// Four reads are the first reading, of which nothing is written; behind them are five, of 200 slots, and one that finds the end.
#[test]
fn each_read_of_a_conversion() {
    for (word, folder, out) in conversions() {
        let wanted = |at: usize| failed_read("cardconvert", if at <= READS { &[] } else { copied(&out, at - READS) });
        each("read", READS + 6, EIO, || run(&folder, "cardconvert", &[word]), wanted);
    }
}

/// Each batch has its write, and the total line has one.
#[test]
fn each_write_of_a_listing() {
    let card = worn_card();
    let folder = folder_with("card", &card);
    let listing = list(&card);
    let lines = |at: usize| listing.split_inclusive('\n').take((SLOTS + 1).min(BATCH_SLOTS * (at - 1))).collect::<String>();
    each("write", 4, ENOSPC, || run(&folder, "cardlist", &[]), |at| failed_write("cardlist", lines(at)));
}

#[test]
fn each_write_of_a_restoring() {
    let card = worn_card();
    let folder = folder_with("card", &card);
    let out = restored_card(&card, LONGEST).0;
    each("write", 3, ENOSPC, || run(&folder, "cardrestore", &[]), |at| failed_write("cardrestore", before(&out, at)));
}

#[test]
fn each_write_of_a_conversion() {
    for (word, folder, out) in conversions() {
        each("write", 5, ENOSPC, || run(&folder, "cardconvert", &[word]), |at| failed_write("cardconvert", copied(&out, at)));
    }
}

#[test]
fn the_write_of_a_check_and_of_a_table() {
    let fine = folder_with("fine", &fine_card(MARKS, SLOTS));
    each("write", 1, ENOSPC, || run(&fine, "cardcheck", &[]), |_| failed_write("cardcheck", ""));
    each("write", 1, ENOSPC, || run(&fine, "cardstarts", &["0", "96"]), |_| failed_write("cardstarts", ""));
    let worn = folder_with("worn", &worn_card());
    each("write", 1, ENOSPC, || run(&worn, "cardcheck", &[]), |_| failed_write("cardcheck", ""));
}

/// Some systems tell of a failed write only where the file is flushed. A pipe is not flushed, and a file that can't be is taken as it is.
#[test]
fn a_flush_that_fails() {
    let card = fine_card(MARKS, SLOTS);
    let folder = folder_with("card", &card);
    for (name, operands) in CALLS {
        let into = || run(&folder, name, operands).output(File::create(folder.join("out")).expect("a file"));
        let whole = || fs::read(folder.join("out")).expect("the output") == done(name, &card, "card").out;
        each("fsync", 1, ENOSPC, into, |_| failed_write(name, ""));
        assert!(whole(), "{name}");
        assert_eq!(into().fault(Fault::error("fsync", 1, EINVAL)).end(), Ended { out: Vec::new(), ..done(name, &card, "card") });
        assert!(whole(), "{name}");
        each("fsync", 0, ENOSPC, || run(&folder, name, operands), |_| failed_write(name, ""));
    }
}

/// A call that a signal interrupts is repeated, also where it moves one byte.
#[test]
fn calls_that_are_interrupted() {
    let card = fine_card(MARKS, BATCH_SLOTS + 20);
    let folder = folder_with("card", &card);
    for (name, operands) in CALLS {
        for call in ["read", "write"] {
            let ended = run(&folder, name, operands).fault(Fault::interrupts(call)).end();
            assert_eq!(ended, done(name, &card, "card"), "{call}");
            let ended = run(&folder, name, operands).fault(Fault::interrupts(call).most(1)).end();
            assert_eq!(ended, done(name, &card, "card"), "{call}, one byte at a time");
        }
    }
}

/// A write that takes nothing fails: in the words of what interrupted it before, or of no failure.
#[test]
fn writes_that_take_nothing() {
    let folder = folder_with("card", &[]);
    let writers = CALLS.into_iter().filter(|(name, _)| ["cardlist", "cardcheck", "cardstarts"].contains(name));
    for (name, operands) in writers {
        for (fault, why) in [(Fault::error("write", 1, 0), "Success"), (Fault::interrupts("write"), "Interrupted system call")] {
            let ended = run(&folder, name, operands).fault(fault.most(0)).end();
            assert_eq!(ended, failed(name, "", "standard output", why));
        }
    }
}

/// A call that would have to wait is not repeated.
#[test]
fn calls_that_would_wait() {
    let folder = folder_with("card", &fine_card(MARKS, 1));
    for (name, operands) in CALLS {
        let total = if name == "cardlist" { "total 0 0 0\n" } else { "" };
        for (call, file, out) in [("read", "card", total), ("write", "standard output", "")] {
            let ended = run(&folder, name, operands).fault(Fault::error(call, 1, EAGAIN)).end();
            assert_eq!(ended, failed(name, out, file, "Resource temporarily unavailable"), "{call}");
        }
    }
}

/// The device fails inside record 29. A listing takes the card to end there; a check knows nothing of a record that it has not read.
#[test]
fn a_read_that_fails_inside_a_record() {
    let card = fine_card(MARKS, SLOTS);
    let folder = folder_with("card", &card);
    let read = &card[..4000];
    for (name, operands) in CALLS {
        let out = match name {
            "cardlist" => list(read).into_bytes(),
            "cardrestore" => restored_card(read, LONGEST).0,
            _ => Vec::new(),
        };
        let ended = run(&folder, name, operands).fault(Fault::error("read", 5, EIO).most(1000)).end();
        assert_eq!(ended, failed_read(name, out));
    }
}

/// The device fails behind the first record, which is fine; then behind a record that is refused, which may be told.
#[test]
fn a_read_that_fails_behind_a_record() {
    let mut card = fine_card(MARKS, SLOTS);
    let folder = folder_with("fine", &card);
    let fault = || Fault::error("read", 2, EIO).most(RECORD);
    assert_eq!(run(&folder, "cardcheck", &[]).fault(fault()).end(), failed_read("cardcheck", ""));
    card[0] = 6;
    let folder = folder_with("refused", &card);
    let ended = run(&folder, "cardcheck", &[]).fault(fault()).end();
    let silent = failed_read("cardcheck", "");
    let told = Ended { status: Some(1), out: format!("1 1 {}\n", words(1)).into_bytes(), ..silent.clone() };
    assert!(ended == silent || ended == told, "{ended:?}");
}

/// What a write has moved stays, and nothing follows it.
#[test]
fn short_writes_before_one_that_fails() {
    let card = fine_card(MARKS, SLOTS);
    let folder = folder_with("card", &card);
    for (name, operands) in CALLS.into_iter().filter(|(name, _)| *name != "cardcheck") {
        let ended = run(&folder, name, operands).fault(Fault::error("write", 10, ENOSPC).most(7)).end();
        assert_eq!(ended, failed_write(name, &done(name, &card, "card").out[..63]));
    }
}

/// A card that comes byte by byte through a pipe.
#[test]
fn slow_pipes() {
    let card = fine_card(MARKS, BATCH_SLOTS + 20);
    for (name, operands) in CALLS.into_iter().filter(|(name, _)| *name != "cardconvert") {
        let bytes = |input: &mut dyn std::io::Write| card.iter().for_each(|&byte| input.write_all(&[byte]).expect("all of the card is read"));
        assert_eq!(Run::new(name, operands).fed(bytes), done(name, &card, "standard input"));
    }
}

/// The device fails between the two readings, or does not know the place.
#[test]
fn a_seek_that_fails() {
    for (word, folder, _) in conversions() {
        each("lseek", 2, EIO, || run(&folder, "cardconvert", &[word]), |_| failed_read("cardconvert", ""));
    }
}

/// The system puts the card at another place than the one to which it was to go back.
#[test]
fn a_seek_that_misses() {
    for (word, folder, _) in conversions() {
        let ended = run(&folder, "cardconvert", &[word]).fault(Fault::misplaces(2)).end();
        assert_eq!(ended, failed("cardconvert", "", "card", "Success"));
    }
}

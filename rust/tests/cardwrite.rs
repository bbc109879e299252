//! The program cardwrite, which makes a card of CSV: records by the reference, bad lines, long lines, parts of the text, the file that is
//! made, statuses.

use crate::{csv, reference, tools};
use csv::reading::{bad_lines, card_of, line_with, COLUMNS, COUNT, DATE, HEADER, LONG, NUMBER, PUMP};
use csv::{columns, fails_as_it_should, header, lengthened, line, random_sheets, records_of, streaming, symbols, takes_arguments, text_of};
use reference::card::RECORD;
use std::collections::{HashMap, HashSet};
use std::fs::{self, File};
use std::io::{BufRead, BufReader, BufWriter, Read, Seek, SeekFrom, Write};
use std::path::Path;
use std::process::Stdio;
use std::thread;
use tools::programs::{folder_with, names, repository, Ended, Fault, Run, EIO};
use tools::sheets::{random_symbols, sheet_record, worn_sheet};
use tools::wear::slot_of;
use tools::Chance;

/// The bytes of a text that are looked at at once.
const PART: usize = 8192;

/// The end of cardwrite on a text through a pipe.
fn piped(text: &[u8]) -> Ended {
    Run::new("cardwrite", &[]).on(text)
}

/// The end where a line is refused behind these records.
fn refused(file: &str, line: usize, why: &str, records: Vec<u8>) -> Ended {
    Ended::new(2, records, format!("cardwrite: {file}: line {line}: {why}\n"))
}

/// The file `out` is as it was, and nothing stands beside it.
fn untouched(folder: &Path) {
    assert_eq!((fs::read(folder.join("out")).expect("a file"), names(folder)), (b"before".to_vec(), vec!["card".into(), "out".into()]));
}

/// Both headers, lines that end with CR LF, and a last one that does not end; from a file and through a pipe.
#[test]
fn random_texts() {
    let mut chance = Chance::new();
    for count in [0, 1, 2, 19, 20, 21, 400, 1000] {
        let sheets = random_sheets(&mut chance, count);
        let wanted = Ended::new(0, records_of(&sheets), "");
        for with_slots in [true, false] {
            let text = text_of(&sheets, with_slots);
            for text in [text.replace('\n', "\r\n"), text.trim_end().to_owned(), text.trim_end().replace('\n', "\r\n"), text] {
                let folder = folder_with("text", text.as_bytes());
                assert_eq!(Run::new("cardwrite", &["card"]).within(&folder).end(), wanted);
                assert_eq!(piped(text.as_bytes()), wanted);
                let out = Run::new("cardwrite", &["-o", "out", "card"]).within(&folder).end();
                assert_eq!(out, Ended::new(0, "", ""));
                assert!(fs::read(folder.join("out")).expect("the card") == wanted.out);
                assert_eq!(names(&folder), ["card", "out"]);
            }
        }
    }
}

/// The text of a card gives the card, and the card of a text the text. What is worn is mended on the way, and what is no sheet is left out.
#[test]
fn there_and_back() {
    let mut chance = Chance::new();
    for count in [0, 1, 40, 500] {
        let sheets = random_sheets(&mut chance, count);
        let (card, text) = (records_of(&sheets), text_of(&sheets, true));
        let printed = Run::new("cardsheets", &[]).on(&card);
        assert_eq!(printed, Ended::new(0, text.as_str(), format!("sheets {count}, no sheets 0, blank 0\n")));
        assert_eq!(piped(&printed.out), Ended::new(0, card.as_slice(), ""));
        let few = &sheets[..count.min(60)];
        let mut worn: Vec<u8> = vec![255; RECORD];
        for symbols in few {
            let (wrong, marked) = [(0, 0), (2, 0), (1, 2), (0, 4)][chance.below(4)];
            worn.extend(worn_sheet(&mut chance, symbols, wrong, marked));
            worn.extend(slot_of(&mut chance, 5).into_iter().map(|byte| if byte == 7 { 6 } else { byte }));
        }
        let mended = piped(&Run::new("cardsheets", &[]).on(&worn).out);
        assert_eq!(mended, Ended::new(0, records_of(few), ""));
        assert_eq!(Run::new("cardsheets", &[]).on(&mended.out).out, text_of(few, true).into_bytes());
    }
}

/// The example of the page.
#[test]
fn the_month() {
    let printed = Run::new("cardsheets", &[&repository("examples/month.card")]).end();
    assert_eq!((printed.status, printed.said.as_str()), (Some(1), "sheets 59, no sheets 3, blank 2\n"));
    let listing = Run::new("cardlist", &[]).on(&piped(&printed.out).out).out;
    assert!(listing.ends_with(b"\n59 7 0 0\ntotal 59 0 0\n"));
}

/// The slots and changed places of a text are numbers, whichever; so is one that has zeros before it.
#[test]
fn numbers_that_are_taken() {
    let sheet = symbols(&mut Chance::new());
    let mut taken = columns(&sheet, Some((1, 0)));
    (taken[0], taken[3]) = ("99999999999999999999".to_owned(), "007".to_owned());
    taken[2] = format!("{:0>3}", taken[2]);
    taken[4..].iter_mut().for_each(|count| *count = format!("{count:0>3}"));
    assert_eq!(piped((header(true) + &taken.join(",")).as_bytes()), Ended::new(0, sheet_record(&sheet), ""));
}

/// A text with this line behind some good ones, which is refused: from a file, and with -o, nothing is written; through a pipe the records
/// of the good lines.
fn complains(before: &[Vec<u8>], with_slots: bool, bad: &str, why: &str) {
    let text = format!("{}{bad}\n{}", text_of(before, with_slots), line(&[0; 100], with_slots.then_some((1, 0))));
    let folder = folder_with("bad", text.as_bytes());
    fs::write(folder.join("out"), "before").expect("a file");
    let (number, shown) = (before.len() + 2, bad.chars().take(600).collect::<String>());
    for arguments in [&["card"][..], &["-o", "out", "card"]] {
        assert_eq!(Run::new("cardwrite", arguments).within(&folder).end(), refused("card", number, why, vec![]), "{shown}");
    }
    assert_eq!(piped(text.as_bytes()), refused("standard input", number, why, records_of(before)), "{shown}");
    let ended = Run::new("cardwrite", &["-o", "out"]).within(&folder).on(text.as_bytes());
    assert_eq!(ended, refused("standard input", number, why, vec![]), "{shown}");
    untouched(&folder);
}

#[test]
fn bad_lines_of_every_kind() {
    for (why, lines) in bad_lines() {
        lines.iter().for_each(|bad| complains(&[], true, bad, why));
    }
    for (changes, why) in [
        (&[(0, "x"), (1, "2024-02-30"), (2, "128")][..], NUMBER),
        (&[(1, "2024-02-30"), (2, "128"), (4, "x")], DATE),
        (&[(2, "128"), (3, "x")], PUMP),
        (&[(3, "x"), (4, "128")], NUMBER),
        (&[(50, "128"), (51, "x")], COUNT),
        (&[(50, "x"), (51, "128")], NUMBER),
        (&[(1, "2024-02-30"), (99, "1,1")], COLUMNS),
    ] {
        complains(&[], true, &line_with(changes), why); // columns are counted, then read from left to right
    }
    let short = columns(&random_symbols(&mut Chance::new()), None).join(",");
    complains(&[], true, &short, COLUMNS);
    complains(&[], false, &line_with(&[]), COLUMNS);
    complains(&[], false, &short.replacen("20", "19", 1), DATE);
    complains(&[], false, header(false).trim_end(), DATE);
}

/// Good texts with a few bytes changed anywhere, or left out, or put in: each is refused, or taken, as the reference reads it.
#[test]
fn texts_with_changes() {
    let mut chance = Chance::new();
    let mut answers: HashMap<&str, usize> = HashMap::new();
    for round in 0..2000 {
        let (count, with_slots) = (chance.below(4), chance.below(2) == 0);
        let sheets = random_sheets(&mut chance, count);
        let mut text = lengthened(&sheets, with_slots, 0, ["\n", "\r\n"][chance.below(2)]).into_bytes();
        let spared = if chance.below(5) > 0 { header(with_slots).len() } else { 0 };
        for _ in 0..chance.below(4) {
            // Every other time in the first columns.
            let near = [20, usize::MAX][chance.below(2)];
            let at = spared + chance.below(near.min(text.len() - spared + 1));
            let bytes = b"0123456789012,,--\n\r :x\0\xff";
            let end = (at + chance.below(3)).min(text.len());
            text.splice(at..end, bytes[chance.below(bytes.len())..].iter().copied().take([0, 1, 1, 2][chance.below(4)]));
        }
        let (records, fault) = card_of(&text);
        let wanted = fault.map_or(Ended::new(0, records.as_slice(), ""), |(line, why)| refused("standard input", line, why, records.clone()));
        assert_eq!(piped(&text), wanted, "round {round}: {}", String::from_utf8_lossy(&text));
        *answers.entry(fault.map_or("fine", |(_, why)| why)).or_default() += 1;
    }
    assert!(["fine", COLUMNS, NUMBER, DATE, PUMP, COUNT, HEADER].iter().all(|answer| answers.get(answer) > Some(&4)), "{answers:?}");
}

/// The number of the line, behind any number of good ones; an empty line is one, also at the end.
#[test]
fn bad_lines_anywhere() {
    let sheets = random_sheets(&mut Chance::new(), 1001);
    for before in [1, 2, 8, 9, 10, 98, 99, 100, 400, 999, 1000, 1001] {
        for with_slots in [true, false] {
            complains(&sheets[..before], with_slots, "", COLUMNS);
            let ended = piped(format!("{}\n", text_of(&sheets[..before], with_slots)).as_bytes());
            assert_eq!(ended, refused("standard input", before + 2, COLUMNS, records_of(&sheets[..before])));
        }
    }
    let last = text_of(&sheets[..3], true) + &line_with(&[(4, "128")]);
    assert_eq!(piped(last.as_bytes()), refused("standard input", 5, COUNT, records_of(&sheets[..3])));
    assert_eq!(piped((header(true) + "\r").as_bytes()), refused("standard input", 2, COLUMNS, vec![]));
    assert_eq!(piped((header(true) + "\n").as_bytes()), refused("standard input", 2, COLUMNS, vec![]));
}

/// A line that does not fit into a part with its end.
#[test]
fn long_lines() {
    let sheets = random_sheets(&mut Chance::new(), 70);
    for (count, why) in [(8000, COLUMNS), (PART - 1, COLUMNS), (PART, LONG), (PART + 1, LONG), (2 * PART, LONG), (70_000, LONG), (3_000_000, LONG)] {
        for before in [0, 1, 3, 70] {
            complains(&sheets[..before], true, &"1".repeat(count), why);
            complains(&sheets[..before], false, &",".repeat(count), why);
            let last = text_of(&sheets[..before], true) + &"1".repeat(count);
            assert_eq!(piped(last.as_bytes()), refused("standard input", before + 2, why, records_of(&sheets[..before])), "{count}");
        }
        let first = if why == COLUMNS { HEADER } else { LONG };
        let spaces = " ".repeat(count + 1 - header(true).len());
        for text in ["1".repeat(count), "1".repeat(count) + "\n", header(true).replace('\n', &spaces)] {
            assert_eq!(piped(text.as_bytes()), refused("standard input", 1, first, vec![]), "{count}");
        }
    }
    complains(&sheets[..2], true, &line_with(&[(4, &"1".repeat(70_000))]), LONG);
    complains(&sheets[..2], true, &line_with(&[(4, &"1".repeat(1_000))]), NUMBER);
}

/// Short, middling and long lines, moved byte by byte, so that the end of the first part falls everywhere into a line; that of the next ones
/// falls behind the start of a line that was cut. Some of the texts end with a line that is refused.
#[test]
fn parts_that_end_anywhere() {
    let of = |count: u8| vec![[vec![count; 96], vec![24, 2, 29, 5]].concat(); 90];
    let mixed = random_sheets(&mut Chance::new(), 120);
    for (sheets, with_slots, end) in [(of(0), false, "\n"), (mixed.clone(), true, "\r\n"), (mixed, false, "\n"), (of(100), true, "\r\n")] {
        let (records, mut cuts) = (records_of(&sheets), HashSet::new());
        for zeros in 0..=450 {
            let text = lengthened(&sheets, with_slots, zeros, end);
            assert!(text.len() > 2 * PART, "{} bytes", text.len());
            cuts.insert(PART - text[..PART].rfind('\n').expect("a line"));
            assert_eq!(piped(text.as_bytes()), Ended::new(0, records.as_slice(), ""), "{zeros} zeros");
            if zeros % 10 == 3 {
                let wanted = refused("standard input", sheets.len() + 2, COLUMNS, records.clone());
                assert_eq!(piped((text + "2024").as_bytes()), wanted, "{zeros} zeros");
            }
        }
        let shortest = sheets.iter().map(|symbols| line(symbols, with_slots.then_some((1, 0))).len()).min().expect("a line");
        assert!((1..=shortest).all(|cut| cuts.contains(&cut)), "a line was cut everywhere");
    }
}

/// Texts that end just before, at and behind the end of a part, with the end of the last line and without it.
#[test]
fn texts_that_fill_a_part() {
    let sheets = vec![[vec![0; 96], vec![24, 2, 29, 5]].concat(); 80];
    for (parts, end) in [1, 2].into_iter().flat_map(|parts| ["\n", "\r\n"].map(|end| (parts, end))) {
        for length in parts * PART - 4..=parts * PART + 4 {
            let fits = (1..).take_while(|&count| lengthened(&sheets[..count], false, 0, end).len() <= length).last().expect("a line");
            let sheets = &sheets[..fits];
            let text = lengthened(sheets, false, length - lengthened(sheets, false, 0, end).len(), end);
            assert_eq!(text.len(), length);
            for text in [&text[..], &text[..length - end.len()], &text[..length - 1]] {
                assert_eq!(piped(text.as_bytes()), Ended::new(0, records_of(sheets), ""), "{} bytes", text.len());
                let folder = folder_with("text", text.as_bytes());
                assert_eq!(Run::new("cardwrite", &["card"]).within(&folder).end(), Ended::new(0, records_of(sheets), ""));
            }
        }
    }
}

/// A first line that is neither header is refused as line 1, and a text without lines too.
#[test]
fn texts_without_a_header() {
    let body = line(&random_symbols(&mut Chance::new()), Some((1, 0)));
    let named = header(true);
    let changed = [("slot", "Slot"), ("00:00,", ""), (",", ";"), ("slot", " slot"), ("slot", "\u{feff}slot"), ("\n", ",24:00\n"), (",pump", "")];
    let more = [("slot,", ""), (",changed", ""), ("slot,date", "date,slot"), ("23:45", "23:46"), ("23:45", "23:45 "), (",", ", "), ("\n", "\r\r\n")];
    let changed = changed.into_iter().chain(more).map(|(from, to)| named.replace(from, to));
    let other = changed.chain(["", "\n", "\r\n", ",\n"].map(String::from));
    let headless = [String::new(), "\n".into(), "\r".into(), "\n\n".into(), named[..20].into(), named[..named.len() - 2].into()];
    for text in other.map(|first| first + &body).chain(headless) {
        assert_eq!(piped(text.as_bytes()), refused("standard input", 1, HEADER, vec![]), "{text}");
        let folder = folder_with("text", text.as_bytes());
        assert_eq!(Run::new("cardwrite", &["card"]).within(&folder).end(), refused("card", 1, HEADER, vec![]), "{text}");
    }
}

#[test]
fn failures() {
    let text = text_of(&[random_symbols(&mut Chance::new())], false);
    fails_as_it_should("cardwrite", &folder_with("failures", text.as_bytes()), "card", "");
    let filling = |text: &str| Run::shell("exec \"$0\" >/dev/full", "cardwrite", &[]).on(text.as_bytes());
    assert_eq!(filling(&text), Ended::new(2, "", "cardwrite: standard output: No space left on device\n"));
    // Of a text without sheets nothing is written.
    assert_eq!(filling(&header(true)), Ended::new(0, "", ""));
}

/// What cardwrite was to replace is as it was, and nothing stands beside it.
#[test]
fn a_file_that_is_not_replaced() {
    let folder = folder_with("text", text_of(&random_sheets(&mut Chance::new(), 100), true).as_bytes());
    fs::write(folder.join("out"), "before").expect("a file");
    let run = || Run::new("cardwrite", &["-o", "out", "card"]).within(&folder);
    let once = [("fsync", 1, "out"), ("rename", 1, "out"), ("lseek", 2, "card")];
    let again = [1, 2].into_iter().flat_map(|at| [("read", at, "card"), ("write", at, "out")]);
    for (call, at, file) in once.into_iter().chain(again) {
        let wanted = Ended::new(2, "", format!("cardwrite: {file}: Input/output error\n"));
        assert_eq!(run().fault(Fault::error(call, at, EIO)).end(), wanted, "{call}");
        untouched(&folder);
    }
    let device = Run::new("cardwrite", &["-o", "/dev/full", "card"]).within(&folder).end();
    assert_eq!(device, Ended::new(2, "", "cardwrite: /dev/full: -o makes a new file, and does not replace a device\n"));
    let unmade = Run::new("cardwrite", &["-o", "no/out", "card"]).within(&folder).end();
    assert_eq!((unmade.status, unmade.said.starts_with("cardwrite: no/out.")), (Some(2), true), "{unmade:?}");
    untouched(&folder);
}

/// Before it gets its name the file beside OUT holds the whole card, and OUT what it held; a killed program leaves OUT.
#[test]
fn a_file_that_is_replaced_at_the_end() {
    let sheets = random_sheets(&mut Chance::new(), 100);
    let folder = folder_with("text", text_of(&sheets, true).as_bytes());
    let read = |name: &str| fs::read(folder.join(name)).expect("a file");
    fs::write(folder.join("out"), "before").expect("a file");
    let run = |arguments: &[&str]| Run::new("cardwrite", arguments).within(&folder);
    assert_eq!(run(&["-o", "out", "card"]).fault(Fault::kill("rename", 1)).end().status, None);
    assert_eq!(read("out"), b"before");
    let look = "rm -f out.*; mkdir seen; cp out seen/out";
    assert_eq!(run(&["-o", "out", "card"]).fault(Fault::before("write", 2, look)).end().status, Some(2), "its file is gone");
    assert_eq!((read("seen/out"), read("out")), (b"before".to_vec(), b"before".to_vec()));
    let look = "rm -r seen; mkdir seen; cp out seen/out; cp out.* seen/new";
    assert_eq!(run(&["card", "-o", "out"]).fault(Fault::before("rename", 1, look)).end(), Ended::new(0, "", ""));
    assert_eq!(read("seen/out"), b"before");
    assert!(read("seen/new") == records_of(&sheets) && read("out") == records_of(&sheets));
    assert_eq!(run(&["-o", "card", "card"]).end(), Ended::new(0, "", ""));
    assert!(read("card") == records_of(&sheets), "the text itself is replaced");
}

/// A file is read twice, from where it stands; a line that has become bad in between is refused the second time.
#[test]
fn a_file_is_read_twice() {
    let sheets = random_sheets(&mut Chance::new(), 100);
    let text = text_of(&sheets, true);
    let worse = || Fault::before("lseek", 2, "printf 'x\\n' >>card");
    let folder = folder_with("text", text.as_bytes());
    let ended = Run::new("cardwrite", &["card"]).within(&folder).fault(worse()).end();
    assert_eq!(ended, refused("card", 102, COLUMNS, records_of(&sheets)));
    fs::write(folder.join("card"), &text).expect("the text");
    fs::write(folder.join("out"), "before").expect("a file");
    let ended = Run::new("cardwrite", &["-o", "out", "card"]).within(&folder).fault(worse()).end();
    assert_eq!(ended, refused("card", 102, COLUMNS, vec![]));
    untouched(&folder);
    let folder = folder_with("behind", ["no header\n", &text].concat().as_bytes());
    let mut file = File::open(folder.join("card")).expect("the text");
    file.seek(SeekFrom::Start(10)).expect("a place");
    assert_eq!(Run::new("cardwrite", &["-"]).input(file).end(), Ended::new(0, records_of(&sheets), ""));
    for fault in [Fault::interrupts("read").most(100), Fault::interrupts("write").most(7)] {
        let folder = folder_with("again", text.as_bytes());
        assert_eq!(Run::new("cardwrite", &["card"]).within(&folder).fault(fault).end(), Ended::new(0, records_of(&sheets), ""));
    }
}

#[test]
fn arguments() {
    let usage = "usage: cardwrite [-o OUT] [FILE]\n";
    takes_arguments("cardwrite", usage);
    for arguments in [&["-o"][..], &["-o", "a", "-o", "b"], &["a", "-o"]] {
        let ended = Run::new("cardwrite", arguments).end();
        assert_eq!(ended, Ended::new(2, "", format!("cardwrite: can't take the argument -o\n{usage}")), "{arguments:?}");
    }
}

/// A million sheets as a text, a card, a text and a card again, in no more memory than a few batches need.
#[test]
fn a_million_records() {
    const TURNS: usize = 2000;
    let sheets = random_sheets(&mut Chance::new(), 500);
    let (records, text) = (records_of(&sheets), text_of(&sheets, false));
    let ends: Vec<String> = sheets.iter().map(|symbols| line(symbols, Some((0, 0)))[1..].to_owned()).collect();
    let mut first = streaming("cardwrite", Stdio::piped());
    let mut sheets = streaming("cardsheets", first.stdout.take().expect("a pipe").into());
    let mut second = streaming("cardwrite", Stdio::piped());
    let (mut input, printed) = (first.stdin.take().expect("a pipe"), BufReader::new(sheets.stdout.take().expect("a pipe")));
    let (mut again, mut card) = (BufWriter::new(second.stdin.take().expect("a pipe")), second.stdout.take().expect("a pipe"));
    thread::scope(|scope| {
        scope.spawn(move || {
            let (first, lines) = text.split_once('\n').expect("a header");
            writeln!(input, "{first}").expect("all of the text is read");
            (0..TURNS).for_each(|_| input.write_all(lines.as_bytes()).expect("all of the text is read"));
        });
        scope.spawn(move || {
            let mut slots = 0;
            for line in printed.lines().map(|line| line.expect("a line") + "\n") {
                let wanted = if slots == 0 { header(true) } else { format!("{slots}{}", ends[(slots - 1) % ends.len()]) };
                assert_eq!(line, wanted);
                again.write_all(line.as_bytes()).expect("all of the text is read");
                slots += 1;
            }
            assert_eq!(slots, 1 + TURNS * ends.len());
        });
        let mut part = vec![0; records.len()];
        for turn in 0..TURNS {
            card.read_exact(&mut part).expect("as many records");
            assert!(part == records, "turn {turn}");
        }
        assert_eq!(card.read(&mut part).expect("the end"), 0);
    });
    for (program, said) in [(first, ""), (sheets, "sheets 1000000, no sheets 0, blank 0\n"), (second, "")] {
        assert_eq!(Ended::of(program.wait_with_output().expect("it ends")), Ended::new(0, "", said));
    }
}

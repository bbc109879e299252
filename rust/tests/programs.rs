//! The packaged programs as a shell runs them: arguments, statuses, what they say of bad input, closed descriptors, devices, and a small stack.

use crate::{csv, reference, tools};
use csv::reading::COLUMNS;
use csv::{random_sheets, records_of, text_of};
use reference::card::{record, record_of, to_new, OLD_MARKS, RECORD};
use std::ffi::OsStr;
use std::fs::{self, File, Permissions};
use std::io::{stderr, Seek, Write};
use std::os::unix::ffi::OsStrExt;
use std::os::unix::fs::PermissionsExt;
use std::path::Path;
use std::process::Command;
use tools::answers::{done, hint, words};
use tools::programs::{folder, folder_with, full, names, nobody_is_there, path, repository, Ended, Folder, Run, PROGRAMS};
use tools::sheets::five_slots;
use tools::wear::codeword;
use tools::Chance;

/// A program, what it must be given beside a card, and how it is called.
struct Call {
    name: &'static str,
    operands: &'static [&'static str],
    usage: &'static str,
}

const CALLS: [Call; 5] = [
    Call { name: "cardlist", operands: &[], usage: "usage: cardlist [FILE]\n" },
    Call { name: "cardcheck", operands: &[], usage: "usage: cardcheck [FILE]\n" },
    Call { name: "cardrestore", operands: &[], usage: "usage: cardrestore [-o OUT] [--reach 0|1|2] [FILE]\n" },
    Call { name: "cardconvert", operands: &["to-old"], usage: "usage: cardconvert to-new|to-old [-o OUT] [FILE]\n" },
    Call { name: "cardstarts", operands: &["0", "96"], usage: "usage: cardstarts FIRST END [FILE]\n" },
];

impl Call {
    /// The operands, and these arguments behind them.
    fn with<'a>(&self, arguments: &[&'a str]) -> Vec<&'a str> {
        self.operands.iter().chain(arguments).copied().collect()
    }

    fn run(&self, arguments: &[&str]) -> Run {
        Run::new(self.name, &self.with(arguments))
    }

    /// By a line of the shell.
    fn shell(&self, line: &str, arguments: &[&str]) -> Run {
        Run::shell(line, self.name, &self.with(arguments))
    }

    /// The end where a call on this file fails at once: a listing has a total line all the same.
    fn fails(&self, file: &str, why: &str, listing: &str) -> Ended {
        let out = if self.name == "cardlist" { listing } else { "" };
        Ended::new(2, out, format!("{}: {file}: {why}\n", self.name))
    }

    /// The end where standard output takes nothing.
    fn unwritten(&self, why: &str) -> Ended {
        Ended::new(2, "", format!("{}: standard output: {why}\n", self.name))
    }

    /// The end where this is said and nothing is done.
    fn refuses(&self, said: &str) -> Ended {
        Ended::new(2, "", format!("{}: {said}\n{}", self.name, self.usage))
    }
}

/// The line of an empty listing.
const NOTHING: &str = "total 0 0 0\n";

/// A card that every program takes and none refuses: sheets, blank slots, and many small records, with which the reference is quick.
fn sheets(slots: usize) -> Vec<u8> {
    let small = record(3, &codeword(&mut Chance::new(), 3), &[]).repeat(95);
    five_slots().concat().into_iter().chain(small).cycle().take(slots * RECORD).collect()
}

#[test]
fn every_program_takes_a_file_or_standard_input() {
    let card = sheets(900);
    let folder = folder_with("taken", &card);
    for call in &CALLS {
        assert_eq!(call.run(&["card"]).within(&folder).end(), done(call.name, &card, "card"), "{}", call.name);
        for arguments in [&[][..], &["-"]] {
            let file = File::open(folder.join("card")).expect("the card");
            assert_eq!(call.run(arguments).input(file).end(), done(call.name, &card, "standard input"), "{}", call.name);
        }
    }
}

/// Help comes before the version, and both before what is wrong.
#[test]
fn help() {
    for call in &CALLS {
        let ended = Run::new(call.name, &["--help"]).end();
        let text = String::from_utf8_lossy(&ended.out).into_owned();
        assert_eq!((ended.status, ended.said.as_str()), (Some(0), ""));
        assert!(text.starts_with(call.usage) && text.contains("\nStatus: 0 "), "{text}");
        for arguments in [&["--version", "--help"][..], &["--help", "a", "b", "c", "d"], &["-x", "--help"], &["-o", "a", "-o", "b", "--help", "-o"]] {
            assert_eq!(Run::new(call.name, arguments).end(), ended, "{arguments:?}");
        }
        assert_eq!(Run::new(call.name, &["--help"]).output(full()).end(), call.unwritten("No space left on device"));
        assert_eq!(Run::shell("exec \"$0\" \"$@\" >&-", call.name, &["--help"]).end(), call.unwritten("Bad file descriptor"));
    }
}

/// The version is that of the header, of the crate and of the package.
#[test]
fn version() {
    let text = |name: &str| fs::read_to_string(repository(name)).expect("a text");
    let header = text("include/xrs.h");
    let line = header.lines().find(|line| line.starts_with("#define XRS_VERSION \"")).expect("the version in include/xrs.h");
    let version = line.split('"').nth(1).expect("a text between quotes");
    assert_eq!(version, env!("CARGO_PKG_VERSION"));
    assert!(text("target/package/lib/pkgconfig/xrs.pc").contains(&format!("\nVersion: {version}\n")));
    for name in PROGRAMS {
        let wanted = Ended::new(0, format!("{name} {version}\n"), "");
        for arguments in [&["--version"][..], &["--version", "-x"], &["a", "b", "c", "d", "--version"]] {
            assert_eq!(Run::new(name, arguments).end(), wanted);
        }
        let wanted = Ended::new(2, "", format!("{name}: standard output: No space left on device\n"));
        assert_eq!(Run::new(name, &["--version"]).output(full()).end(), wanted);
    }
}

/// The program with these arguments, and a card as its input: it reads nothing, makes no file, and says what it can't take.
fn takes_not(call: &Call, arguments: &[&str], said: &str) {
    let folder = folder_with("untaken", &sheets(1));
    let mut file = File::open(folder.join("card")).expect("the card");
    let input = file.try_clone().expect("the same place in the file");
    let ended = Run::new(call.name, arguments).within(&folder).input(input).end();
    assert_eq!(ended, call.refuses(said), "{arguments:?}");
    assert_eq!(file.stream_position().expect("a place"), 0, "it was read");
    assert_eq!(names(&folder), ["card"], "a file was made");
}

#[test]
fn arguments_that_no_program_takes() {
    for call in &CALLS {
        for wrong in ["-x", "--", "--o", "-oout", "--reach=1", "--Help", "--help ", "-h", "-1", "--versio"] {
            let said = format!("can't take the argument {wrong}");
            takes_not(call, &call.with(&[wrong]), &said);
            takes_not(call, &call.with(&["card", wrong]), &said);
            takes_not(call, &[wrong], &said);
        }
        takes_not(call, &call.with(&["card", "more"]), "can't take the argument more");
        takes_not(call, &call.with(&["-", ""]), "can't take the argument ");
    }
}

#[test]
fn options_that_are_wrong() {
    let [list, check, restore, convert, starts] = &CALLS;
    for call in [list, check, starts] {
        takes_not(call, &call.with(&["-o", "out"]), "can't take the argument -o");
        takes_not(call, &call.with(&["card", "-o"]), "can't take the argument -o");
    }
    for call in [list, check, convert, starts] {
        takes_not(call, &call.with(&["--reach", "1"]), "can't take the argument --reach");
    }
    for call in [restore, convert] {
        takes_not(call, &call.with(&["-o", "out", "-o", "other"]), "can't take the argument -o");
        takes_not(call, &call.with(&["-o", "out", "card", "-o", "out"]), "can't take the argument -o");
        takes_not(call, &call.with(&["card", "-o"]), "can't take the argument -o");
    }
    takes_not(restore, &["--reach", "1", "--reach", "1"], "can't take the argument --reach");
    takes_not(restore, &["-o", "out", "--reach"], "can't take the argument --reach");
    for reach in ["3", "", "00", "01", "-1", "2 ", " 2", "two", "-", "--reach", "256", "000000000000000002"] {
        takes_not(restore, &["-o", "out", "--reach", reach, "card"], &format!("--reach is 0, 1 or 2, not {reach}"));
    }
}

#[test]
fn operands_that_are_missing_or_wrong() {
    let [.., convert, starts] = &CALLS;
    takes_not(convert, &[], "an argument is missing");
    takes_not(convert, &["-o", "out"], "an argument is missing");
    takes_not(starts, &[], "an argument is missing");
    takes_not(starts, &["0"], "an argument is missing");
    for word in ["", "-", "card", "to-ne", "to-newer", "to-newest", "TO-NEW", "to-old "] {
        takes_not(convert, &["-o", "out", word, "card"], &format!("the conversion is to-new or to-old, not {word}"));
    }
}

/// More arguments than any program has room for.
#[test]
fn very_many_arguments() {
    for call in &CALLS {
        let ended = call.run(&["card"; 1000]).end();
        assert_eq!(ended, call.refuses("can't take the argument card"));
    }
}

#[test]
fn cards_that_cannot_be_opened() {
    let long = "a".repeat(5000);
    for call in &CALLS {
        for name in ["/no/such/card", "", "no such card", "card/"] {
            let ended = call.run(&[name]).within(&folder("unopened")).end();
            assert_eq!(ended, call.fails(name, "No such file or directory", ""));
        }
        assert_eq!(call.run(&[&long]).end(), call.fails("the name of the card", "File name too long", ""));
        assert_eq!(call.run(&[&long[..4095]]).end(), call.fails(&long[..4095], "File name too long", ""));
    }
}

/// A file whose name is no UTF-8 is not opened. An argument may be any bytes.
#[test]
fn names_that_are_no_utf_8() {
    for call in &CALLS {
        let folder = folder_with("foreign", &sheets(1));
        let run = |argument: &[u8]| call.run(&[]).argument(OsStr::from_bytes(argument)).within(&folder).end();
        fs::rename(folder.join("card"), folder.join(OsStr::from_bytes(b"card\xff"))).expect("a new name");
        assert_eq!(run(b"card\xff"), call.fails("card\u{fffd}", "Invalid or incomplete multibyte or wide character", ""));
        assert_eq!(run(b"-\xff"), call.refuses("can't take the argument -\u{fffd}"));
    }
}

/// A folder opens, and cannot be read.
#[test]
fn a_folder() {
    for call in &CALLS {
        assert_eq!(call.run(&["/"]).end(), call.fails("/", "Is a directory", NOTHING));
        let ended = call.run(&[]).input(File::open("/").expect("a folder")).end();
        assert_eq!(ended, call.fails("standard input", "Is a directory", NOTHING));
    }
}

/// A file that was opened, and that nobody may open again. Where these tests may all the same, as root may, programs run as nobody.
struct Closed {
    folder: Folder,
    opened: File,
    opens: bool,
}

/// The file `card` with these bytes. None where the tests may open it, and can't run a program as nobody.
fn closed(bytes: &[u8]) -> Option<Closed> {
    let folder = folder_with("closed", bytes);
    let opened = File::open(folder.join("card")).expect("the card");
    set_mode(&folder, "", 0o755);
    set_mode(&folder, "card", 0o000);
    let opens = File::open(folder.join("card")).is_ok();
    if opens && !nobody_is_there() {
        let _ = writeln!(stderr(), "NOT TRIED: a card without permission: these tests may read it, and can't run a program as nobody");
        return None;
    }
    Some(Closed { folder, opened, opens })
}

fn set_mode(folder: &Path, name: &str, mode: u32) {
    fs::set_permissions(folder.join(name), Permissions::from_mode(mode)).expect("its mode");
}

impl Closed {
    /// The program, without the right to open the card. To run as nobody it is copied into the folder of the card, which nobody need not
    /// find: it is the current one. Another process copies it, since no file can be run that is open for writing, also in a process that
    /// another test begins meanwhile.
    fn run(&self, name: &str, arguments: &[&str]) -> Run {
        let run = if self.opens {
            let copied = Command::new("cp").arg(path(name)).arg(&*self.folder).status().expect("cp");
            assert!(copied.success(), "{name} is built by `./package`");
            set_mode(&self.folder, name, 0o755);
            let mut command = Command::new(format!("./{name}"));
            command.args(arguments);
            Run::of(command).by_nobody()
        } else {
            Run::new(name, arguments)
        };
        run.within(&self.folder)
    }
}

#[test]
fn a_card_without_permission() {
    if let Some(closed) = closed(&sheets(1)) {
        for call in &CALLS {
            let ended = closed.run(call.name, &call.with(&["card"])).end();
            assert_eq!(ended, call.fails("card", "Permission denied", ""));
        }
    }
}

/// To be read twice standard input must be opened again. Where it can't be, a card is not converted, and a text is taken as from a pipe.
#[test]
fn standard_input_that_cannot_be_opened_again() {
    let lines = random_sheets(&mut Chance::new(), 2);
    let text = text_of(&lines, true) + "x\n";
    let input = |closed: &Closed| closed.opened.try_clone().expect("the same file");
    if let (Some(card), Some(text)) = (closed(&sheets(1)), closed(text.as_bytes())) {
        let ended = card.run("cardconvert", &["to-old"]).input(input(&card)).end();
        assert_eq!(ended, Ended::new(2, "", "cardconvert: standard input: Permission denied\n"));
        let ended = text.run("cardwrite", &[]).input(input(&text)).end();
        assert_eq!(ended, Ended::new(2, records_of(&lines), format!("cardwrite: standard input: line 4: {COLUMNS}\n")));
    }
}

/// Standard input that is closed: cardcheck above all must not say ok.
#[test]
fn closed_standard_input() {
    for call in &CALLS {
        let ended = call.shell("exec \"$0\" \"$@\" <&-", &[]).end();
        assert_eq!(ended, call.fails("standard input", "Bad file descriptor", NOTHING));
    }
}

/// That the write failed and that it is closed may both be told.
#[test]
fn closed_standard_output() {
    let folder = folder_with("unheard", &sheets(900));
    for call in &CALLS {
        for line in ["exec \"$0\" \"$@\" <card >&-", "exec \"$0\" \"$@\" card <&- >&-", "exec \"$0\" \"$@\" card >&-"] {
            let mut ended = call.shell(line, &[]).within(&folder).end();
            let wanted = call.unwritten("Bad file descriptor");
            if ended.said == wanted.said.repeat(2) {
                ended.said = wanted.said.clone();
            }
            assert_eq!(ended, wanted, "{line}");
        }
    }
}

/// Where nothing is to be written too, and though standard input was opened again to be read a second time.
#[test]
fn closed_standard_output_of_nothing() {
    let folder = folder_with("unheard_nothing", b"");
    let ended = Run::shell("exec \"$0\" \"$@\" <card >&-", "cardconvert", &["to-old"]).within(&folder).end();
    assert_eq!(ended, Ended::new(2, "", "cardconvert: standard output: Bad file descriptor\n"));
}

/// Nobody hears what is said; the status and the output are the same.
#[test]
fn closed_standard_error() {
    let card = sheets(900);
    let folder = folder_with("unsaid", &card);
    for call in &CALLS {
        let wanted = Ended { said: String::new(), ..done(call.name, &card, "card") };
        assert_eq!(call.shell("exec \"$0\" \"$@\" 2>&-", &["card"]).within(&folder).end(), wanted);
        let ended = call.shell("exec \"$0\" \"$@\" 2>&-", &["/no/such/card"]).within(&folder).end();
        assert_eq!(ended, Ended::new(2, "", ""));
        let ended = call.shell("exec \"$0\" \"$@\" <&- >&- 2>&-", &[]).within(&folder).end();
        assert_eq!(ended, Ended::new(2, "", ""));
    }
}

/// The device /dev/full takes no byte. Of an empty card two programs write nothing.
#[test]
fn a_full_device() {
    for slots in [0, 1, 900] {
        let card = sheets(slots);
        let folder = folder_with("full", &card);
        for call in &CALLS {
            let wanted = match done(call.name, &card, "card") {
                ended if ended.out.is_empty() => ended,
                _ => call.unwritten("No space left on device"),
            };
            assert_eq!(call.run(&["card"]).within(&folder).output(full()).end(), wanted, "{slots} slots");
        }
    }
}

/// A pipe that nobody reads any more. The signal that tells of it does not end a program.
#[test]
fn a_reader_that_has_left() {
    let line = "mkfifo pipe && exec 3<>pipe 4>pipe && exec 3<&- && exec \"$0\" \"$@\" >&4 4>&-";
    for call in &CALLS {
        let folder = folder_with("left", &sheets(900));
        assert_eq!(call.shell(line, &["card"]).within(&folder).end(), call.unwritten("Broken pipe"));
    }
}

/// Done, with an answer of no or without one, and not done.
#[test]
fn a_card_with_a_refused_record() {
    let mut card = sheets(900);
    card[500 * RECORD] = 6;
    let folder = folder_with("refused", &card);
    for call in &CALLS {
        let ended = call.run(&["card"]).within(&folder).end();
        let (status, wanted) = match call.name {
            "cardcheck" => (1, Ended::new(1, format!("501 1 {}\n", words(1)), "")),
            "cardrestore" => (1, done("cardrestore", &card, "card")),
            "cardconvert" => (2, Ended::new(2, "", format!("cardconvert: nothing is written; the first record refused: 501 1 {}\n", words(1)))),
            name => (0, done(name, &card, "card")),
        };
        assert_eq!((ended.status, ended), (Some(status), wanted));
    }
}

/// An old card is told by its length alone, and the status stays.
#[test]
fn old_cards() {
    let slot = record_of(OLD_MARKS, 5, &codeword(&mut Chance::new(), 5), &[]);
    for (slots, old) in [(0, false), (1, true), (2, true), (138, true), (139, false), (140, true), (402, true), (900, true)] {
        let card = slot.repeat(slots);
        let folder = folder_with("old", &card);
        for call in CALLS.iter().filter(|call| call.name != "cardconvert") {
            assert_eq!(!hint(call.name, "card", card.len()).is_empty(), old, "{slots} slots");
            assert_eq!(call.run(&["card"]).within(&folder).end(), done(call.name, &card, "card"), "{slots} slots");
        }
        let converted = to_new(&card, slots * RECORD).expect("a card that is converted");
        assert_eq!(Run::new("cardconvert", &["to-new", "card"]).within(&folder).end(), Ended::new(0, converted, ""));
    }
}

/// A stack of 128 KiB is enough.
#[test]
fn a_small_stack() {
    let card = sheets(900);
    let folder = folder_with("stack", &card);
    for call in &CALLS {
        let run = |arguments: &[&str]| Run::with_small_stack(call.name, &call.with(arguments)).within(&folder);
        let wanted = done(call.name, &card, "card");
        assert_eq!(run(&["card"]).end(), wanted);
        assert_eq!(run(&["/no/such/card"]).end().status, Some(2));
        assert_eq!(Run::with_small_stack(call.name, &["--help"]).end().status, Some(0));
        if ["cardrestore", "cardconvert"].contains(&call.name) {
            let ended = run(&["-o", "out", "card"]).end();
            assert_eq!(ended, Ended { out: Vec::new(), ..wanted.clone() });
            assert!(fs::read(folder.join("out")).expect("the output") == wanted.out);
        }
    }
}

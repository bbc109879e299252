//! The option -o of cardrestore and cardconvert: the file that it names is the whole output, or is as it was, whatever fails.

use crate::{reference, tools};
use reference::card::{record, record_of, to_new, to_old, MARKS, OLD_MARKS, OLD_RECORD, RECORD};
use std::ffi::OsStr;
use std::fs::{self, File};
use std::os::unix::ffi::OsStrExt;
use std::os::unix::fs::PermissionsExt;
use std::path::Path;
use tools::answers::{hint, restored, words, LONGEST};
use tools::programs::{folder, folder_with, names, Ended, Fault, Folder, Run, EIO, ENOSPC};
use tools::wear::{codeword, worn};
use tools::Chance;

/// What the file held that is to be replaced.
const BEFORE: &str = "what stood here before\n";

/// The slots of a card of three batches.
const SLOTS: usize = 900;

/// A program with its first operands, a card of several batches, and how it ends on that card: its output goes to the file.
struct Case {
    name: &'static str,
    operands: &'static [&'static str],
    card: Vec<u8>,
    done: Ended,
}

fn restoring() -> Case {
    let mut chance = Chance::new();
    let card: Vec<u8> = (0..SLOTS).flat_map(|_| worn(&mut chance, 3)).collect();
    Case { name: "cardrestore", operands: &[], done: restored(&card, "card", LONGEST), card }
}

fn converting(word: &'static [&'static str; 1]) -> Case {
    let mut chance = Chance::new();
    let marks = if word[0] == "to-new" { OLD_MARKS } else { MARKS };
    let card: Vec<u8> = (0..SLOTS).flat_map(|_| record_of(marks, 3, &codeword(&mut chance, 3), &[7])).collect();
    let out = if word[0] == "to-new" { to_new(&card, SLOTS * RECORD) } else { to_old(&card, SLOTS * OLD_RECORD) };
    Case { name: "cardconvert", operands: word, done: Ended::new(0, out.expect("a card that is converted"), ""), card }
}

fn cases() -> [Case; 3] {
    [restoring(), converting(&["to-new"]), converting(&["to-old"])]
}

impl Case {
    /// A folder with the file `card`, and the file `out` that is to be replaced.
    fn folder(&self, name: &str) -> Folder {
        let folder = folder_with(name, &self.card);
        fs::write(folder.join("out"), BEFORE).expect("a file");
        folder
    }

    /// The program with -o and this file, on the card.
    fn run(&self, folder: &Path, out: &str) -> Run {
        Run::new(self.name, self.operands).argument("-o").argument(out).argument("card").within(folder)
    }

    /// The end where the output goes to a file.
    fn silent(&self) -> Ended {
        Ended { out: Vec::new(), ..self.done.clone() }
    }

    /// The end where this is said of a file and nothing is done.
    fn failed(&self, file: &str, why: &str) -> Ended {
        Ended::new(2, "", format!("{}: {file}: {why}\n", self.name))
    }

    /// Both files are as they were, and there is no other.
    fn untouched(&self, folder: &Path) {
        assert_eq!(names(folder), ["card", "out"]);
        assert!(fs::read(folder.join("card")).expect("the card") == self.card);
        assert_eq!(fs::read(folder.join("out")).expect("the output"), BEFORE.as_bytes());
    }
}

#[test]
fn a_file_that_is_new_or_replaced() {
    for case in cases() {
        let folder = case.folder("named");
        for out in ["out", "new", "./out"] {
            assert_eq!(case.run(&folder, out).end(), case.silent());
            assert!(fs::read(folder.join(out)).expect("the output") == case.done.out);
        }
        assert_eq!(names(&folder), ["card", "new", "out"]);
        assert!(fs::read(folder.join("card")).expect("the card") == case.card);
    }
}

/// The option may stand anywhere.
#[test]
fn the_option_behind_the_card() {
    let case = restoring();
    let folder = case.folder("behind");
    let ended = Run::new("cardrestore", &["card", "-o", "out", "--reach", "2"]).within(&folder).end();
    assert_eq!(ended, case.silent());
    assert!(fs::read(folder.join("out")).expect("the output") == case.done.out);
}

#[test]
fn the_card_itself() {
    for case in cases() {
        let folder = case.folder("itself");
        assert_eq!(case.run(&folder, "card").end(), case.silent());
        assert!(fs::read(folder.join("card")).expect("the card") == case.done.out);
        assert_eq!(names(&folder), ["card", "out"]);
    }
}

#[test]
fn a_hyphen_is_standard_output() {
    for case in cases() {
        let folder = case.folder("hyphen");
        assert_eq!(case.run(&folder, "-").end(), case.done);
        case.untouched(&folder);
    }
}

/// The mode is that of a new file, whatever the old one had.
#[test]
fn the_mode_of_a_new_file() {
    for case in cases() {
        let folder = case.folder("mode");
        fs::set_permissions(folder.join("out"), fs::Permissions::from_mode(0o600)).expect("its mode");
        let arguments = [case.operands, &["-o", "out", "card"]].concat();
        let ended = Run::shell("umask 027 && exec \"$0\" \"$@\"", case.name, &arguments).within(&folder).end();
        assert_eq!(ended, case.silent());
        assert_eq!(fs::metadata(folder.join("out")).expect("the output").permissions().mode() & 0o777, 0o640);
    }
}

#[test]
fn devices_are_not_replaced() {
    for case in cases() {
        let folder = case.folder("device");
        for device in ["/dev/null", "/dev/full", "/dev/stdout", "/dev/"] {
            let ended = case.run(&folder, device).end();
            assert_eq!(ended, case.failed(device, "-o makes a new file, and does not replace a device"));
        }
        case.untouched(&folder);
    }
}

/// The message names the file that was to be made, which has the number of the process at its end.
#[test]
fn files_that_cannot_be_made() {
    let long = "a".repeat(256);
    for case in cases() {
        let folder = case.folder("unmade");
        for (out, why) in [("no/such/out", "No such file or directory"), ("card/out", "Not a directory"), (&long, "File name too long")] {
            let ended = case.run(&folder, out).end();
            assert_eq!((ended.status, ended.out.len()), (Some(2), 0));
            assert!(ended.said.starts_with(&format!("{}: {out}.", case.name)) && ended.said.ends_with(&format!(": {why}\n")), "{ended:?}");
        }
        let foreign = Run::new(case.name, case.operands).argument("-o").argument(OsStr::from_bytes(b"out\xff"));
        let ended = foreign.argument("card").within(&folder).end();
        assert_eq!((ended.status, ended.out.len()), (Some(2), 0));
        let (begin, why) = (format!("{}: out\u{fffd}.", case.name), ": Invalid or incomplete multibyte or wide character\n");
        assert!(ended.said.starts_with(&begin) && ended.said.ends_with(why), "{ended:?}");
        for length in [4000, 4090, 4095, 4096, 5000] {
            let ended = case.run(&folder, &"a".repeat(length)).end();
            assert_eq!((ended.status, ended.out.len()), (Some(2), 0));
            assert!(ended.said.starts_with(&format!("{}: ", case.name)) && ended.said.contains("too long\n"), "{ended:?}");
        }
        case.untouched(&folder);
    }
}

/// A folder is not replaced, nor a name that no file can have; the new file does not stay.
#[test]
fn names_that_cannot_be_taken() {
    for case in cases() {
        let folder = case.folder("untaken");
        fs::create_dir(folder.join("folder")).expect("a folder");
        assert_eq!(case.run(&folder, "folder").end(), case.failed("folder", "Is a directory"));
        assert_eq!(case.run(&folder, "").end(), case.failed("", "No such file or directory"));
        fs::remove_dir(folder.join("folder")).expect("the folder is empty");
        case.untouched(&folder);
    }
}

/// A card that can't be opened or read leaves the file.
#[test]
fn cards_that_cannot_be_read() {
    for case in cases() {
        let folder = case.folder("unread");
        for (card, why) in [("no such card", "No such file or directory"), ("/", "Is a directory")] {
            let ended = Run::new(case.name, case.operands).within(&folder).argument("-o").argument("out").argument(card).end();
            assert_eq!(ended, case.failed(card, why));
        }
        case.untouched(&folder);
    }
}

/// A card that is refused leaves the file, also where the file is the card.
#[test]
fn a_refused_conversion() {
    for mut case in [converting(&["to-new"]), converting(&["to-old"])] {
        let slot = case.card.len() / SLOTS;
        case.card[850 * slot] = 6;
        let folder = case.folder("refused");
        let said = format!("cardconvert: nothing is written; the first record refused: 851 1 {}\n", words(1));
        for out in ["out", "card"] {
            assert_eq!(case.run(&folder, out).end(), Ended::new(2, "", said.clone()));
            case.untouched(&folder);
        }
        case.card.truncate(case.card.len() - 1);
        let folder = case.folder("cut");
        assert_eq!(case.run(&folder, "out").end().status, Some(2));
        case.untouched(&folder);
    }
}

/// A card that changes while it is converted leaves the file.
#[test]
fn a_card_that_changes() {
    for case in [converting(&["to-new"]), converting(&["to-old"])] {
        for command in ["truncate -s 1000 card", "printf x >>card"] {
            let folder = case.folder("changed");
            let ended = case.run(&folder, "out").fault(Fault::before("lseek", 2, command)).end();
            assert_eq!(ended, case.failed("card", "the card changed while it was converted"), "{command}");
            assert_eq!(names(&folder), ["card", "out"]);
            assert_eq!(fs::read(folder.join("out")).expect("the output"), BEFORE.as_bytes());
        }
    }
}

/// The calls of a run with -o that may fail: how often each is made. A failed close is not told.
fn calls(case: &Case) -> [(&'static str, usize); 4] {
    let (reads, writes) = if case.name == "cardrestore" { (4, 3) } else { (10, 5) };
    [("read", reads), ("write", writes), ("fsync", 1), ("rename", 1)]
}

/// Each call fails in turn, a read with an error of the device and another with a full disk: the file is as it was, also where it is the
/// card, and the message names it.
#[test]
fn each_call_that_fails() {
    for case in cases() {
        let folder = case.folder("failing");
        for (call, times) in calls(&case) {
            for at in 1..=times {
                for out in ["out", "card"] {
                    let (error, file, why) =
                        if call == "read" { (EIO, "card", "Input/output error") } else { (ENOSPC, out, "No space left on device") };
                    let ended = case.run(&folder, out).fault(Fault::error(call, at, error)).end();
                    assert_eq!(ended, case.failed(file, why), "{call} {at}");
                    case.untouched(&folder);
                }
            }
            let (_, faults) = case.run(&folder, "new").fault(Fault::error(call, times + 1, EIO)).end_counting();
            assert_eq!(faults, Some(0), "there are more calls of {call} than {times}");
            fs::remove_file(folder.join("new")).expect("a new file");
        }
    }
}

/// The program is killed before each call in turn, and before the new file is closed: the file is as it was, also where it is the card. What
/// was begun may stay beside it.
#[test]
fn each_call_before_which_it_is_killed() {
    for case in cases() {
        let folder = case.folder("killed");
        for (call, times) in calls(&case).into_iter().chain([("close", 1)]) {
            for at in 1..=times {
                for out in ["out", "card"] {
                    let ended = case.run(&folder, out).fault(Fault::kill(call, at)).end();
                    assert_eq!(ended, Ended { status: None, out: Vec::new(), said: String::new() }, "{call} {at}");
                    let begun = |name: &String| name.starts_with(&format!("{out}."));
                    names(&folder).iter().filter(|name| begun(name)).for_each(|name| fs::remove_file(folder.join(name)).expect("a file"));
                    case.untouched(&folder);
                }
            }
        }
    }
}

/// A file that must not grow beyond 50 KiB, and a write that is cut short there.
#[test]
fn a_limit_of_the_file() {
    for case in cases() {
        let folder = case.folder("limited");
        let arguments = [case.operands, &["-o", "out", "card"]].concat();
        let ended = Run::shell("trap '' XFSZ && ulimit -f 100 && exec \"$0\" \"$@\"", case.name, &arguments).within(&folder).end();
        assert_eq!(ended, case.failed("out", "File too large"));
        case.untouched(&folder);
    }
}

/// Where standard output or standard error is closed the new file may get its number: nothing but the card goes there.
#[test]
fn closed_descriptors() {
    for case in cases() {
        for closing in [">&-", "2>&-", ">&- 2>&-"] {
            let folder = case.folder("closed");
            let arguments = [case.operands, &["-o", "out"]].concat();
            let ended = Run::shell(&format!("exec \"$0\" \"$@\" <card {closing}"), case.name, &arguments).within(&folder).end();
            let said = if closing == ">&-" { case.done.said.clone() } else { String::new() };
            assert_eq!(ended, Ended { said, ..case.silent() }, "{closing}");
            assert!(fs::read(folder.join("out")).expect("the output") == case.done.out, "{closing}");
        }
    }
}

/// An old card is told of, and its message goes to standard error or nowhere.
#[test]
fn an_old_card() {
    let card = record(3, &codeword(&mut Chance::new(), 3), &[])[..OLD_RECORD].to_vec();
    let said = hint("cardrestore", "standard input", card.len());
    assert!(!said.is_empty());
    let last = "restored 0, changed 0, refused 1, blank 0\n";
    for (closing, said) in [("", said + last), ("2>&-", String::new())] {
        let folder = folder_with("old", &card);
        let ended = Run::shell(&format!("exec \"$0\" \"$@\" <card {closing}"), "cardrestore", &["-o", "out"]).within(&folder).end();
        assert_eq!(ended, Ended::new(1, "", said), "{closing}");
        assert!(fs::read(folder.join("out")).expect("the output") == card, "{closing}");
    }
}

/// Standard input is read once where the output is a file too, and may be a pipe.
#[test]
fn a_pipe_into_a_file() {
    let case = restoring();
    let folder = folder("pipe");
    let ended = Run::new("cardrestore", &["-o", "out"]).within(&folder).on(&case.card);
    assert_eq!(ended, case.silent());
    assert!(fs::read(folder.join("out")).expect("the output") == case.done.out);
    let input = File::open(folder.join("out")).expect("the restored card");
    let ended = Run::new("cardrestore", &["-o", "out"]).within(&folder).input(input).end();
    assert!(ended.said.contains(", changed 0, "), "{ended:?}");
    assert!(fs::read(folder.join("out")).expect("the output") == case.done.out);
}

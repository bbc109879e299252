//! What every program that prints on standard output must do of its arguments, and where a call fails.

use super::programs::{full, Ended, Fault, Run, ENOSPC};
use std::ffi::OsStr;
use std::fs::{self, File};
use std::os::unix::ffi::OsStrExt;
use std::path::Path;

/// A program that could not do it ends with 2, and says why: behind these operands, on a file of this folder that it takes. It has written
/// `begun` before it reads.
pub fn fails_as_it_should(name: &str, operands: &[&str], folder: &Path, file: &str, begun: &str) {
    let fails = |what: &str, out: &str| Ended::new(2, out, format!("{name}: {what}\n"));
    let with = |file: &str| Run::new(name, operands).argument(file).within(folder);
    assert_eq!(with("nowhere").end(), fails("nowhere: No such file or directory", ""));
    let foreign = Run::new(name, operands).argument(OsStr::from_bytes(b"card\xff")).within(folder).end();
    assert_eq!(foreign, fails("card\u{fffd}: Invalid or incomplete multibyte or wide character", ""));
    assert_eq!(with(".").end(), fails(".: Is a directory", begun));
    let unread = with("-").input(File::open(folder).expect("a folder")).end();
    assert_eq!(unread, fails("standard input: Is a directory", begun));
    let unread = Run::shell("exec \"$0\" \"$@\" <&-", name, operands).argument("-").within(folder).end();
    assert_eq!(unread, fails("standard input: Bad file descriptor", begun));
    assert_eq!(with(file).output(full()).end(), fails("standard output: No space left on device", ""));
    let closed = Run::shell("exec \"$0\" \"$@\" >&-", name, operands).argument(file).within(folder).end();
    assert_eq!(closed, fails("standard output: Bad file descriptor", ""));
    let whole = with(file).end().out;
    let into = File::create(folder.join("whole")).expect("a file");
    let late = with(file).output(into).fault(Fault::error("fsync", 1, ENOSPC)).end();
    assert_eq!(late, fails("standard output: No space left on device", ""));
    assert_eq!(fs::read(folder.join("whole")).expect("the output"), whole);
    fs::remove_file(folder.join("whole")).expect("the output");
    let shell = |line: &str, file: &str| Run::shell(line, name, operands).argument(file).within(folder).end();
    let left = "rm -f pipe; mkfifo pipe && exec 3<>pipe 4>pipe && exec 3<&- && exec \"$0\" \"$@\" >&4 4>&-";
    assert_eq!(shell(left, file), fails("standard output: Broken pipe", ""));
    fs::remove_file(folder.join("pipe")).expect("the pipe");
}

/// Nobody hears what is said, or the stack has 128 KiB: output and status are the same.
pub fn runs_as_before(name: &str, operands: &[&str], folder: &Path, file: &str) {
    let shell = |line: &str, file: &str| Run::shell(line, name, operands).argument(file).within(folder).end();
    let whole = shell("exec \"$0\" \"$@\"", file);
    assert!(matches!(whole.status, Some(0 | 1)) && !whole.out.is_empty(), "{whole:?}");
    assert_eq!(Run::with_small_stack(name, operands).argument(file).within(folder).end(), whole);
    assert_eq!(shell("exec \"$0\" \"$@\" 2>&-", file), Ended { said: String::new(), ..whole });
    assert_eq!(shell("exec \"$0\" \"$@\" 2>&-", "nowhere"), Ended::new(2, "", ""));
}

/// Help comes before the version, and both before what is wrong: here each of some arguments, and one behind these operands, which are as many
/// as are taken.
pub fn takes_arguments(name: &str, operands: &[&str], usage: &str) {
    let help = Run::new(name, &["--version", "-x", "--help"]).end();
    assert_eq!((help.status, help.said.as_str()), (Some(0), ""));
    let text = String::from_utf8_lossy(&help.out);
    assert!(text.starts_with(usage) && text.contains("Status: 0 "), "{text}");
    let version = Run::new(name, &["-x", "--version"]).end();
    assert_eq!(version, Ended::new(0, format!("{name} {}\n", env!("CARGO_PKG_VERSION")), ""));
    for asked in ["--help", "--version"] {
        let unwritten = Run::new(name, &[asked]).output(full()).end();
        assert_eq!(unwritten, Ended::new(2, "", format!("{name}: standard output: No space left on device\n")));
    }
    for (arguments, wrong) in [(&["-x"][..], "-x"), (&["--reach", "1"], "--reach"), (&[operands, &["b"]].concat(), "b"), (&["--"], "--")] {
        let wanted = Ended::new(2, "", format!("{name}: can't take the argument {wrong}\n{usage}"));
        assert_eq!(Run::new(name, arguments).end(), wanted, "{arguments:?}");
    }
}

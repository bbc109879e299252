//! Runs the packaged programs, also with faults, and tells how they ended. Nothing of the environment in which the tests are started reaches
//! them but the path.

use crate::reference::once::Once;
use std::ffi::OsStr;
use std::fs::{self, File};
use std::io::{Error, Write};
use std::ops::Deref;
use std::os::unix::process::CommandExt;
use std::path::{Path, PathBuf};
use std::process::{id, Child, Command, Output, Stdio};
use std::sync::atomic::{AtomicUsize, Ordering};
use std::{env, fmt, ptr, thread};

pub const PROGRAMS: [&str; 9] =
    ["cardlist", "cardcheck", "cardrestore", "cardconvert", "cardstarts", "cardsheets", "cardwrite", "cardlook", "cardcompare"];

/// The slots that a program reads at once.
pub const BATCH_SLOTS: usize = 400;

/// The error numbers of Linux that the tests name.
pub const EINTR: i32 = 4;
pub const EIO: i32 = 5;
pub const EAGAIN: i32 = 11;
pub const EINVAL: i32 = 22;
pub const ENOSPC: i32 = 28;

const ROOT: &str = concat!(env!("CARGO_MANIFEST_DIR"), "/..");

/// A file of the repository.
pub fn repository(name: &str) -> String {
    format!("{ROOT}/{name}")
}

/// The path of a packaged program.
pub fn path(name: &str) -> String {
    repository(&format!("target/package/bin/{name}"))
}

/// How a program ended: its status, none where a signal ended it; what it wrote on standard output, and what it said on standard error.
#[derive(Clone, PartialEq, Eq)]
pub struct Ended {
    pub status: Option<i32>,
    pub out: Vec<u8>,
    pub said: String,
}

impl Ended {
    pub fn new(status: i32, out: impl Into<Vec<u8>>, said: impl Into<String>) -> Ended {
        Ended { status: Some(status), out: out.into(), said: said.into() }
    }

    pub fn of(output: Output) -> Ended {
        Ended { status: output.status.code(), out: output.stdout, said: String::from_utf8_lossy(&output.stderr).into_owned() }
    }
}

/// The last bytes of what was written: it may be a whole card.
impl fmt::Debug for Ended {
    fn fmt(&self, f: &mut fmt::Formatter) -> fmt::Result {
        let tail = &self.out[self.out.len().saturating_sub(80)..];
        write!(f, "status {:?}, {} bytes, at last {:?}, said {:?}", self.status, self.out.len(), String::from_utf8_lossy(tail), self.said)
    }
}

/// What c/fault.c does to a program.
#[derive(Clone, Default)]
pub struct Fault(Vec<(&'static str, String)>);

impl Fault {
    /// The call of this number fails.
    pub fn error(call: &str, at: usize, error: i32) -> Fault {
        Fault(vec![("FAULT_CALL", call.into()), ("FAULT_AT", at.to_string()), ("FAULT_ERROR", error.to_string())])
    }

    /// A signal interrupts each such call once.
    pub fn interrupts(call: &str) -> Fault {
        Fault(vec![("FAULT_CALL", call.into()), ("FAULT_AT", "odd".into()), ("FAULT_ERROR", EINTR.to_string())])
    }

    /// A shell runs the command before the call of this number.
    pub fn before(call: &str, at: usize, command: &str) -> Fault {
        Fault(vec![("FAULT_CALL", call.into()), ("FAULT_AT", at.to_string()), ("FAULT_RUN", command.into())])
    }

    /// A signal that can't be caught ends the program before the call of this number.
    pub fn kill(call: &str, at: usize) -> Fault {
        Fault::before(call, at, "kill -9 $PPID")
    }

    /// The lseek of this number answers a place that is one byte behind.
    pub fn misplaces(at: usize) -> Fault {
        Fault(vec![("FAULT_CALL", "lseek".into()), ("FAULT_AT", at.to_string()), ("FAULT_ADD", "1".into())])
    }

    /// And each read and write moves at most so many bytes.
    pub fn most(mut self, bytes: usize) -> Fault {
        self.0.push(("FAULT_MOST", bytes.to_string()));
        self
    }
}

/// The library of c/fault.c, compiled once, as it is found from a test's folder: the loader takes no name with a space. It gets its name
/// when it is whole, since other tests of the same repository may be using it.
fn library() -> &'static str {
    static LIBRARY: Once<String> = Once::new();
    LIBRARY.get(|| {
        let name = format!("{}-fault.so", env!("CARGO_CRATE_NAME"));
        let begun = format!("{}-{name}", id());
        let flags = ["-std=c99", "-O1", "-Wall", "-Wextra", "-Werror", "-shared", "-fPIC", "-o", &begun];
        let compiler = Command::new("cc").args(flags).arg(repository("c/fault.c")).current_dir(room()).status();
        assert!(compiler.expect("a C compiler").success(), "cc c/fault.c");
        fs::rename(room().join(begun), room().join(&name)).expect("a new name");
        format!("../{name}")
    })
}

extern "C" {
    fn setgroups(count: usize, groups: *const u32) -> i32;
    fn setgid(group: u32) -> i32;
    fn setuid(user: u32) -> i32;
}

/// Lets the command run as the user nobody. `CommandExt::uid` comes before the change to the current folder, of which nobody may not have
/// the folders above; this comes behind it.
fn as_nobody(command: &mut Command) {
    const NOBODY: u32 = 65534;
    let become_nobody = || match unsafe { setgroups(0, ptr::null()) == 0 && setgid(NOBODY) == 0 && setuid(NOBODY) == 0 } {
        true => Ok(()),
        false => Err(Error::last_os_error()),
    };
    // Safe: between fork and exec these three calls are made and no other, and they lend no memory.
    unsafe { command.pre_exec(become_nobody) };
}

/// May a program run as nobody? Not where the system knows one user alone, as in some containers.
pub fn nobody_is_there() -> bool {
    let mut command = Command::new("true");
    as_nobody(&mut command);
    command.status().map_or(false, |status| status.success())
}

/// A program that is to run. Its standard input is empty where nothing else is said.
pub struct Run {
    command: Command,
    log: Option<PathBuf>,
}

impl Run {
    pub fn new(name: &str, arguments: &[&str]) -> Run {
        Run::of(Command::new(path(name))).arguments(arguments)
    }

    /// By a line of the shell in which `"$0" "$@"` are the program and its arguments.
    pub fn shell(line: &str, name: &str, arguments: &[&str]) -> Run {
        let mut command = Command::new("sh");
        command.args(["-c", line, &path(name)]);
        Run::of(command).arguments(arguments)
    }

    pub fn of(mut command: Command) -> Run {
        command.stdin(Stdio::null()).env_clear().envs(env::var_os("PATH").map(|path| ("PATH", path)));
        Run { command, log: None }
    }

    /// With a stack of 128 KiB, and no environment: that is a part of the stack, as are up to 8 KiB that the system leaves out by chance, and
    /// cardconvert needs nearly all of the rest.
    pub fn with_small_stack(name: &str, arguments: &[&str]) -> Run {
        let mut run = Run::shell("ulimit -s 128 && exec \"$0\" \"$@\"", name, arguments);
        run.command.env_clear();
        run
    }

    fn arguments(self, arguments: &[&str]) -> Run {
        arguments.iter().fold(self, |run, argument| run.argument(argument))
    }

    /// And one argument more.
    pub fn argument(mut self, argument: impl AsRef<OsStr>) -> Run {
        self.command.arg(argument);
        self
    }

    /// With this folder as the current one.
    pub fn within(mut self, folder: &Path) -> Run {
        self.command.current_dir(folder);
        self
    }

    pub fn input(mut self, file: impl Into<Stdio>) -> Run {
        self.command.stdin(file);
        self
    }

    pub fn output(mut self, file: impl Into<Stdio>) -> Run {
        self.command.stdout(file);
        self
    }

    /// As the user nobody, who must be able to reach the program from the current folder on.
    pub fn by_nobody(mut self) -> Run {
        as_nobody(&mut self.command);
        self
    }

    /// With a fault, which must happen. Its log stands beside the folder of the test.
    pub fn fault(mut self, fault: Fault) -> Run {
        let log = self.command.get_current_dir().expect("a test with a fault has a folder").with_extension("log");
        let _ = fs::remove_file(&log);
        self.command.env("LD_PRELOAD", library()).env("FAULT_LOG", &log).envs(fault.0);
        self.log = Some(log);
        self
    }

    pub fn end(self) -> Ended {
        let (ended, faults) = self.end_counting();
        assert!(faults != Some(0), "the fault did not happen: {ended:?}");
        ended
    }

    /// How it ended, and how often the fault happened, where there is one.
    pub fn end_counting(mut self) -> (Ended, Option<u64>) {
        let output = self.command.output().expect("the program is built by `./package`");
        let faults = self.log.map(|log| {
            let count = fs::metadata(&log).map_or(0, |file| file.len());
            let _ = fs::remove_file(log);
            count
        });
        (Ended::of(output), faults)
    }

    /// Begins, and writes to pipes.
    pub fn begin(mut self) -> Child {
        self.command.stdout(Stdio::piped()).stderr(Stdio::piped()).spawn().expect("the program is built by `./package`")
    }

    /// Through a pipe on what `make` writes.
    pub fn fed(self, make: impl FnOnce(&mut dyn Write) + Send) -> Ended {
        let mut program = self.input(Stdio::piped()).begin();
        let mut input = program.stdin.take().expect("a pipe");
        thread::scope(|scope| {
            scope.spawn(move || make(&mut input));
            Ended::of(program.wait_with_output().expect("the program ends"))
        })
    }

    /// Through a pipe on these bytes. A program that has its answer may stop reading.
    pub fn on(self, card: &[u8]) -> Ended {
        self.fed(|input| {
            let _ = input.write_all(card);
        })
    }
}

/// Where tests may make files, and run programs as they are run there themselves. An example that takes this module in has no such folder.
fn room() -> &'static Path {
    match option_env!("CARGO_TARGET_TMPDIR") {
        Some(room) => Path::new(room),
        None => panic!("a folder is for tests alone"),
    }
}

/// A folder of a test, which is removed at its end, also where the test fails.
pub struct Folder(PathBuf);

impl Deref for Folder {
    type Target = Path;

    fn deref(&self) -> &Path {
        &self.0
    }
}

impl Drop for Folder {
    fn drop(&mut self) {
        let _ = fs::remove_dir_all(&self.0);
    }
}

/// An empty folder that nobody else has: no other process, and no other call of this one. The thread of a test has its name.
pub fn folder(name: &str) -> Folder {
    static COUNT: AtomicUsize = AtomicUsize::new(0);
    let test = thread::current().name().expect("a test").replace("::", "-");
    let count = COUNT.fetch_add(1, Ordering::Relaxed);
    let folder = Folder(room().join(format!("{}-{}-{count}-{test}-{name}", env!("CARGO_CRATE_NAME"), id())));
    let _ = fs::remove_dir_all(&*folder);
    fs::create_dir_all(&*folder).expect("a folder");
    folder
}

/// The same with a file `card` that holds these bytes.
pub fn folder_with(name: &str, card: &[u8]) -> Folder {
    let folder = folder(name);
    fs::write(folder.join("card"), card).expect("a card");
    folder
}

/// The names in a folder, in their order.
pub fn names(folder: &Path) -> Vec<String> {
    let entry = |entry: std::io::Result<fs::DirEntry>| entry.expect("an entry").file_name().to_string_lossy().into_owned();
    let mut names: Vec<String> = fs::read_dir(folder).expect("the folder").map(entry).collect();
    names.sort();
    names
}

/// The device that takes no byte.
pub fn full() -> File {
    File::options().write(true).open("/dev/full").expect("the device")
}

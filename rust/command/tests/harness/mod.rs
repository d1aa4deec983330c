//! The command as a user runs it.
#![allow(dead_code, unused_imports)] // not every test asks for everything
pub mod case;
pub mod heads;
pub mod json;
pub mod named;
pub mod searched;

pub use cases::directory::{root, Directory};
pub use cases::said::{run, said, Said};
use std::ffi::OsStr;
use std::fs::OpenOptions;
use std::io::{self, Write};
use std::path::PathBuf;
use std::process::{Child, Command, Stdio};

pub const COMMAND: &str = env!("CARGO_BIN_EXE_ullimaqsu");

/// What the command says to these words.
pub fn ullimaqsu<W: AsRef<OsStr>>(words: &[W]) -> Said {
    run(Command::new(COMMAND).args(words))
}

/// What it prints where nothing is wrong.
pub fn printed<W: AsRef<OsStr>>(words: &[W]) -> String {
    let (status, printed, said) = ullimaqsu(words);
    assert_eq!((status, said.as_str()), (Some(0), ""), "{printed}");
    printed
}

/// What is given was read and is refused, with this line.
pub fn refused(line: &str) -> Said {
    (Some(1), String::new(), format!("ullimaqsu: {line}\n"))
}

/// The command line is not understood, or something can't be read or written: this line says what.
pub fn stopped(line: &str) -> Said {
    (Some(2), String::new(), format!("ullimaqsu: {line}\n"))
}

/// The command with these words, waiting for what it is given and read.
pub fn started<W: AsRef<OsStr>>(words: &[W]) -> Child {
    let mut command = Command::new(COMMAND);
    command.args(words).stdin(Stdio::piped()).stdout(Stdio::piped()).stderr(Stdio::piped()).spawn().expect("it starts")
}

/// What it says to these words where it reads these bytes from standard input.
pub fn fed<W: AsRef<OsStr>>(words: &[W], bytes: impl AsRef<[u8]>) -> Said {
    let mut process = started(words);
    process.stdin.take().expect("piped").write_all(bytes.as_ref()).expect("it reads");
    said(process.wait_with_output().expect("it ends"))
}

/// The command with these words, started by a shell that does something before.
pub fn after<W: AsRef<OsStr>>(before: &str, words: &[W]) -> Command {
    let mut command = Command::new("sh");
    command.args(["-c", &format!("{before}; exec \"$@\""), "sh", COMMAND]).args(words);
    command
}

fn into<W: AsRef<OsStr>>(output: Stdio, words: &[W]) -> Said {
    let process = Command::new(COMMAND).args(words).stdout(output).stderr(Stdio::piped()).spawn().expect("it starts");
    said(process.wait_with_output().expect("it ends"))
}

/// The command with these words where standard output has no room.
pub fn into_full<W: AsRef<OsStr>>(words: &[W]) -> Said {
    into(OpenOptions::new().write(true).open("/dev/full").expect("a full device").into(), words)
}

/// The command with these words where standard output is a pipe that nobody reads.
pub fn into_broken<W: AsRef<OsStr>>(words: &[W]) -> Said {
    let (_, broken) = io::pipe().expect("a pipe");
    into(broken.into(), words)
}

/// A circuit under `examples/bench`.
pub fn example(name: &str) -> PathBuf {
    root().join("examples/bench").join(name).with_extension("bench")
}

/// A file under `examples/selector`: a circuit with selectors, which no text has.
pub fn selectors(name: &str) -> PathBuf {
    root().join("examples/selector").join(name).with_extension("rec")
}

/// All circuits of both.
pub fn examples() -> Vec<PathBuf> {
    let texts = ["c17", "decoder4", "multiplier4", "parity16", "adder16", "trees"].iter().map(|name| example(name));
    texts.chain([selectors("circuit")]).collect()
}

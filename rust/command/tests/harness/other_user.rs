//! The command as a user runs it who may not read everything.
use super::harness::{run, Directory, Said, COMMAND};
use std::ffi::OsStr;
use std::fs;
use std::os::unix::fs::MetadataExt;
use std::process::Command;

/// How root runs something as another user.
const WAYS: [&[&str]; 2] =
    [&["setpriv", "--reuid=65534", "--regid=65534", "--clear-groups"], &["su", "-s", "/bin/sh", "-c", "exec \"$0\" \"$@\"", "nobody"]];

/// What the command says to these words where the user is no root; nothing, loudly, where no such user can be had.
pub fn ullimaqsu<W: AsRef<OsStr>>(words: &[W]) -> Option<Said> {
    let directory = Directory::new("other user");
    let mut way = way(&directory)?;
    Some(run(way.args(words)))
}

/// The command, as the user that runs the tests or, where that is root, as another one. Where it was built, another user may not come.
fn way(directory: &Directory) -> Option<Command> {
    if fs::metadata("/proc/self").expect("a process").uid() != 0 {
        return Some(Command::new(COMMAND));
    }
    // another process makes the copy: what this one has open for writing may be held by whatever a test beside starts, and then can't be run
    let copy = directory.path("ullimaqsu");
    assert_eq!(run(Command::new("cp").arg(COMMAND).arg(&copy)).0, Some(0));
    let with = |way: &[&str]| {
        let mut command = Command::new(way[0]);
        command.args(&way[1..]).arg(&copy);
        command
    };
    let works = |way: &&&[&str]| with(way).arg("help").output().is_ok_and(|output| output.status.success());
    let found = WAYS.iter().find(works).map(|way| with(way));
    if found.is_none() {
        println!("ABSENT: neither setpriv nor su lets root be another user, and what such a user may not read was NOT tried");
    }
    found
}

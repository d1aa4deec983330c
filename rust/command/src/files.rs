//! Files that are read.
use crate::problem::{shown, Problem};
use std::fs::File;
use std::io::{self, ErrorKind, Read};
use std::path::Path;

/// The first bytes of a file, at most so many: who asks for one more than a limit sees that the file goes on.
pub fn read(path: &Path, most: usize) -> Result<Vec<u8>, Problem> {
    let mut bytes = Vec::new();
    open(path)?.take(most as u64).read_to_end(&mut bytes).map_err(|error| unreadable(path, error))?;
    Ok(bytes)
}

/// A file that can be read.
pub fn open(path: &Path) -> Result<File, Problem> {
    let unread = |error| unreadable(path, error);
    let file = File::open(path).map_err(unread)?;
    match file.metadata().map_err(unread)?.is_dir() {
        true => Err(Problem::Stopped(format!("{} is a directory", shown(path)))),
        false => Ok(file),
    }
}

/// What opening or reading has met.
pub fn unreadable(path: &Path, error: io::Error) -> Problem {
    Problem::Stopped(match error.kind() {
        ErrorKind::NotFound => format!("there is no file {}", shown(path)),
        _ => format!("{} can't be read: {}", shown(path), why(&error)),
    })
}

/// The reason, without the number that only this machine knows.
pub fn why(error: &io::Error) -> String {
    let reason = error.to_string();
    reason.split(" (os error").next().unwrap_or_default().to_string()
}

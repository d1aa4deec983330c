//! Where a file is written, and what stands there.
use crate::files::why;
use crate::problem::{shown, Problem};
use std::ffi::OsStr;
use std::fs::{self, Metadata, OpenOptions};
use std::io::ErrorKind;
use std::os::unix::ffi::OsStrExt;
use std::os::unix::fs::{MetadataExt, PermissionsExt};
use std::path::{Path, PathBuf};

/// The bit that lets a file's owner write.
const OWNER_WRITES: u32 = 0o200;

/// A place that may be written.
pub struct Place {
    /// As it was given, for messages.
    pub shown: String,
    /// The file itself, behind all links.
    pub path: PathBuf,
    /// What stands there.
    pub old: Option<Metadata>,
}

impl Place {
    /// A place is new, or a regular file that is not write-protected, or what a link leads to; and none of the sources, which are read.
    pub fn find(path: &Path, sources: &[&Path]) -> Result<Place, Problem> {
        let old = path.metadata().ok();
        let real = match &old {
            Some(old) => standing(path, old, sources),
            None => absent(path),
        };
        Ok(Place { shown: shown(path), path: real.map_err(Problem::Stopped)?, old })
    }

    /// Whether both are one file, by whatever names and links, or will be.
    pub fn is(&self, other: &Place) -> bool {
        match (&self.old, &other.old) {
            (Some(one), Some(other)) => same(one, other),
            _ => self.path == other.path,
        }
    }
}

/// The real path of what stands there. It must be a file that the caller may write to, and its owner too: the mode is looked at since nothing keeps
/// root from writing.
fn standing(path: &Path, old: &Metadata, sources: &[&Path]) -> Result<PathBuf, String> {
    let stop = |says: &str| Err(format!("{} {says}", shown(path)));
    if old.is_dir() {
        return stop("is a directory");
    }
    if sources.iter().any(|source| leads_to(source, old)) {
        return stop("is one of the files that are read");
    }
    // the real path leads elsewhere where the system has a link to a file that has lost its name
    let real = match path.canonicalize() {
        Ok(real) if old.is_file() && leads_to(&real, old) => real,
        _ => return stop("is no regular file"),
    };
    let protected = old.permissions().mode() & OWNER_WRITES == 0 || OpenOptions::new().write(true).open(&real).is_err();
    if protected {
        return stop("is write-protected");
    }
    Ok(real)
}

fn leads_to(path: &Path, file: &Metadata) -> bool {
    path.metadata().is_ok_and(|of| same(&of, file))
}

fn same(one: &Metadata, other: &Metadata) -> bool {
    (one.dev(), one.ino()) == (other.dev(), other.ino())
}

/// The real path of a file that is not there, in a directory that is.
fn absent(path: &Path) -> Result<PathBuf, String> {
    if path.is_symlink() {
        return Err(format!("{} is a link to nothing", shown(path)));
    }
    let bytes = path.as_os_str().as_bytes();
    if bytes.is_empty() {
        return Err("the name of the file to be written is empty".to_string());
    }
    // by its bytes, since what ends in a slash or in dots names a directory, which is then missing
    let (directory, name) = match bytes.iter().rposition(|&byte| byte == b'/') {
        Some(slash) => bytes.split_at(slash + 1),
        None => (&b"."[..], bytes),
    };
    if matches!(name, b"" | b"." | b"..") {
        return Err(format!("there is no directory {}", shown(path)));
    }
    let real = match fs::canonicalize(OsStr::from_bytes(directory)) {
        Ok(directory) if directory.is_dir() => directory.join(OsStr::from_bytes(name)),
        _ => return Err(format!("the directory of {} is missing or can't be entered", shown(path))),
    };
    match real.symlink_metadata() {
        // such as a name that is too long, which is better said now than when all is printed
        Err(error) if error.kind() != ErrorKind::NotFound => Err(format!("{} can't be written: {}", shown(path), why(&error))),
        _ => Ok(real),
    }
}

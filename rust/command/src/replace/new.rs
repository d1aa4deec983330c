//! The new file, until it takes its place.
use super::Place;
use crate::files::why;
use std::collections::hash_map::RandomState;
use std::fs::{self, File, OpenOptions};
use std::hash::{BuildHasher, Hasher};
use std::io::{self, ErrorKind, Write};
use std::os::unix::fs::{chown, MetadataExt, OpenOptionsExt};
use std::path::{Path, PathBuf};

/// The mode of what takes the place of a file, until it has that file's mode: nobody else can read it.
const OWN: u32 = 0o600;

/// The mode of what is new, of which the umask takes its bits.
const ANYBODY: u32 = 0o666;

/// A file beside the place, all written. It is removed unless it takes the place.
pub struct New {
    pub place: Place,
    path: PathBuf,
    placed: bool,
}

impl New {
    /// Makes it in the same directory, and writes it.
    pub fn write(place: Place, bytes: &[u8]) -> Result<New, String> {
        let mode = if place.old.is_some() { OWN } else { ANYBODY };
        let (mut file, path) = made_beside(&place.path, mode).map_err(|_| format!("no file can be made beside {}", place.shown))?;
        let new = New { place, path, placed: false };
        file.write_all(bytes).map_err(|error| new.unwritten(error))?;
        Ok(new)
    }

    /// It takes its place, with the mode and as far as may be the owner of what stood there. What has become a directory meanwhile stays.
    pub fn take_place(mut self) -> Result<(), String> {
        if let Some(old) = &self.place.old {
            // not everybody may give files away, and where there are no modes nobody can set them: what is new is then the caller's own. The mode
            // comes last, as a change of owners takes some of its bits
            let _ = chown(&self.path, Some(old.uid()), Some(old.gid()));
            let _ = fs::set_permissions(&self.path, old.permissions());
        }
        fs::rename(&self.path, &self.place.path).map_err(|error| self.unwritten(error))?;
        self.placed = true;
        Ok(())
    }

    fn unwritten(&self, error: io::Error) -> String {
        format!("{} could not be written: {}", self.place.shown, why(&error))
    }
}

impl Drop for New {
    fn drop(&mut self) {
        if !self.placed {
            // there is nobody to tell that it stays
            let _ = fs::remove_file(&self.path);
        }
    }
}

/// An empty file in the same directory, of which nobody could know the name.
fn made_beside(path: &Path, mode: u32) -> io::Result<(File, PathBuf)> {
    loop {
        let new = path.with_file_name(format!(".ullimaqsu.{:016x}", unknown()));
        match OpenOptions::new().write(true).create_new(true).mode(mode).open(&new) {
            // a name that nobody could know is taken by chance alone
            Err(error) if error.kind() == ErrorKind::AlreadyExists => continue,
            made => return made.map(|file| (file, new)),
        }
    }
}

/// A number that nobody could know: the system's random numbers are the keys of this hash.
fn unknown() -> u64 {
    RandomState::new().build_hasher().finish()
}

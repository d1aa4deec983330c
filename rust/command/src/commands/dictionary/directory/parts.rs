//! The files of a directory.
use super::STEPS;
use crate::explain::MOST_INPUTS;
use crate::files::read;
use crate::problem::{shown, Problem};
use std::fs;
use std::io::ErrorKind;
use std::path::{Path, PathBuf};
use ullimaqsu::LARGEST_CIRCUIT;

/// A file of records: what is read of it, and whether it is there.
pub struct Part {
    pub path: PathBuf,
    pub bytes: Vec<u8>,
    pub absent: bool,
}

impl Part {
    /// Of a file of some length so many bytes are read at most.
    fn load(directory: &Path, name: &str, most: impl Fn(u64) -> usize) -> Result<Part, Problem> {
        let path = directory.join(name);
        match fs::metadata(&path) {
            Err(error) if error.kind() == ErrorKind::NotFound => Ok(Part { path, bytes: Vec::new(), absent: true }),
            Ok(found) if !found.is_file() && !found.is_dir() => Err(Problem::Stopped(format!("{} is no regular file", shown(&path)))),
            // where something else is wrong, the reading says what
            found => Ok(Part { bytes: read(&path, most(found.map_or(0, |found| found.len())))?, path, absent: false }),
        }
    }
}

/// One byte above the limit is read: what is longer is refused, whatever follows.
fn above(limit: usize) -> impl Fn(u64) -> usize {
    move |_| limit + 1
}

/// Each state line is another input: where there are more records than there may be inputs, a bad one is among the first. Of what follows it only
/// matters whether the last record is whole.
fn enough_states(length: u64) -> usize {
    4 * (MOST_INPUTS + 1) + (length % 4) as usize
}

/// What a directory has.
pub struct Parts {
    pub circuit: Part,
    /// Where there are clock steps, how many, and the state records.
    pub clocked: Option<(u64, Part)>,
    pub faults: Part,
    pub patterns: Part,
}

impl Parts {
    pub fn load(directory: &Path, steps: Option<u64>) -> Result<Parts, Problem> {
        let circuit = Part::load(directory, "circuit.rec", above(LARGEST_CIRCUIT))?;
        let clocked = steps.map(|steps| Ok((steps, states(directory)?))).transpose()?;
        let [faults, patterns] =
            [("faults.rec", 2_048), ("patterns.rec", 16_384)].map(|(name, limit)| Part::load(directory, name, above(limit)));
        Ok(Parts { circuit, clocked, faults: faults?, patterns: patterns? })
    }

    pub fn all(&self) -> impl Iterator<Item = &Part> {
        let states = self.clocked.iter().map(|(_, states)| states);
        [&self.circuit].into_iter().chain(states).chain([&self.faults, &self.patterns])
    }
}

/// The state records. Absent ones would pass for none, and a circuit without state lines is another one.
fn states(directory: &Path) -> Result<Part, Problem> {
    let states = Part::load(directory, "states.rec", enough_states)?;
    match states.absent {
        true => Err(Problem::Stopped(format!("there is no file {}, which {STEPS} wants, if only an empty one", shown(&states.path)))),
        false => Ok(states),
    }
}

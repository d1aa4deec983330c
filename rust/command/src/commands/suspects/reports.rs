//! What the tester reports, a line each.
use crate::files::{self, unreadable, why};
use crate::lists::{is_blank, lines, place, words};
use crate::problem::{shown, Problem};
use crate::words::{cited, is_digits};
use std::fs::{metadata, File};
use std::io::{self, BufRead, BufReader, IsTerminal, Read, Write};
use std::os::unix::fs::FileTypeExt;
use std::path::{Path, PathBuf};

/// The most bytes of a line.
const MOST: usize = 64 << 10;

/// A pattern has failed or passed.
#[derive(Clone, Copy, PartialEq, Eq, Debug)]
pub struct Report {
    pub pattern: usize,
    pub failed: bool,
}

impl Report {
    /// The report of a line, where anything stands in it; or the byte at which something is wrong, and what.
    pub fn read(line: &str, patterns: usize) -> Result<Option<Report>, (usize, String)> {
        let mut words = words(line);
        let Some((at, number)) = words.next() else { return Ok(None) };
        let pattern = numbered(number, patterns).map_err(|says| (at, says))?;
        let end = line.trim_end_matches(is_blank).len();
        let (at, word) = words.next().ok_or_else(|| (end, format!("after {} there must be fail or pass", cited(number))))?;
        let failed = has_failed(word).ok_or_else(|| (at, format!("{} is neither fail nor pass", cited(word))))?;
        match words.next() {
            None => Ok(Some(Report { pattern, failed })),
            Some((at, more)) => Err((at, format!("a line has one report, and here follows {}", cited(more)))),
        }
    }
}

/// The pattern that a word names, of so many.
fn numbered(word: &str, patterns: usize) -> Result<usize, String> {
    if !is_digits(word) {
        return Err(format!("{} is no number of a pattern: a report is written 3 fail or 3 pass", cited(word)));
    }
    let none = || format!("there is no pattern {}: the last is {}", cited(word), patterns - 1);
    word.parse().ok().filter(|pattern| *pattern < patterns).ok_or_else(none)
}

fn has_failed(word: &str) -> Option<bool> {
    match word.to_ascii_lowercase().as_str() {
        "fail" | "failed" | "f" => Some(true),
        "pass" | "passed" | "p" => Some(false),
        _ => None,
    }
}

/// The lines of a file or of standard input, as they come.
pub struct Lines {
    from: Box<dyn BufRead>,
    file: Option<PathBuf>,
    /// How many were read.
    number: usize,
}

impl Lines {
    /// Of a file, or of standard input where none is named.
    pub fn open(file: Option<&Path>) -> Result<Lines, Problem> {
        let from: Box<dyn BufRead> = match file {
            Some(path) if is_pipe(path) => Box::new(BufReader::new(Pipe { path: path.to_path_buf(), file: None })),
            Some(path) => Box::new(BufReader::new(files::open(path)?)),
            None => Box::new(io::stdin().lock()),
        };
        Ok(Lines { from, file: file.map(Path::to_path_buf), number: 0 })
    }

    /// Says to whoever sits at a terminal what is waited for. That it can't be said loses nothing.
    pub fn invite(&self) {
        if self.file.is_none() && io::stdin().is_terminal() {
            let _ = writeln!(io::stderr(), "type the number of a pattern and fail or pass, as in 0 fail; Ctrl-D ends");
        }
    }

    /// The next one, without its comment.
    pub fn next(&mut self) -> Result<Option<String>, Problem> {
        let mut line = Vec::new();
        // one byte above the limit: a device may go on without an end
        let read = self.from.by_ref().take(MOST as u64 + 1).read_until(b'\n', &mut line);
        self.number += 1;
        match read.map_err(|error| self.unread(error))? {
            0 => Ok(None),
            1..=MOST => Ok(lines(&line).next().map(String::from)),
            _ => Err(Problem::Stopped(self.said(&format!("line {} has more than {} KiB", self.number, MOST >> 10)))),
        }
    }

    /// What is wrong at this byte of the line that was read last.
    pub fn wrong(&self, byte: usize, says: &str) -> Problem {
        Problem::Stopped(self.said(&place(self.number, byte, says)))
    }

    fn said(&self, says: &str) -> String {
        self.file.as_ref().map_or(says.to_string(), |file| format!("{}: {says}", shown(file)))
    }

    fn unread(&self, error: io::Error) -> Problem {
        match &self.file {
            Some(file) => unreadable(file, error),
            None => Problem::Stopped(format!("standard input can't be read: {}", why(&error))),
        }
    }
}

/// A pipe with a name. To open it is to wait for somebody who writes to it, so it is opened when it is read, and the first answer is printed before.
struct Pipe {
    path: PathBuf,
    file: Option<File>,
}

fn is_pipe(path: &Path) -> bool {
    metadata(path).is_ok_and(|of| of.file_type().is_fifo())
}

impl Read for Pipe {
    fn read(&mut self, bytes: &mut [u8]) -> io::Result<usize> {
        let file = match &mut self.file {
            Some(file) => file,
            none => none.insert(File::open(&self.path)?),
        };
        file.read(bytes)
    }
}

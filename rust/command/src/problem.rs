//! Why a command ends without its answer.
use std::ffi::OsStr;
use std::process::ExitCode;

/// Nothing more can be said where nobody reads any more.
const CLOSED_PIPE: u8 = 141;

#[derive(Debug, PartialEq, Eq)]
pub enum Problem {
    /// What was given has been read, and is refused: status 1.
    Refused(String),
    /// Nothing was run, or something can't be read or written: status 2.
    Stopped(String),
    /// The answer is printed, and it is that something is not as it should be: status 1, and nothing more is said.
    Printed,
    /// Something was not understood, which has been told where it came up, and all the rest is done: status 2, and nothing more is said.
    Told,
    /// Whoever read what is printed has gone: nothing is said.
    Unheard,
}

impl Problem {
    pub fn code(&self) -> ExitCode {
        match self {
            Problem::Refused(_) | Problem::Printed => ExitCode::from(1),
            Problem::Stopped(_) | Problem::Told => ExitCode::from(2),
            Problem::Unheard => ExitCode::from(CLOSED_PIPE),
        }
    }

    /// One line on standard error.
    pub fn tell(&self) {
        if let Problem::Refused(says) | Problem::Stopped(says) = self {
            // nobody can be told that this can't be told
            let _ = std::io::Write::write_all(&mut std::io::stderr(), format!("ullimaqsu: {}\n", one_line(says)).as_bytes());
        }
    }
}

/// A name of a file as it is shown.
pub fn shown(name: impl AsRef<OsStr>) -> String {
    one_line(&name.as_ref().to_string_lossy())
}

/// On one line whatever it is.
fn one_line(text: &str) -> String {
    text.chars().map(|letter| if letter.is_control() { '?' } else { letter }).collect()
}

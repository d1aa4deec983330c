//! The commands, a row each.
mod audit;
mod bench;
mod check;
mod clauses;
mod compact;
mod control;
mod dictionary;
mod faults;
mod narrow;
mod search;
mod suspects;
mod unfold;
mod values;

use crate::help;
use crate::nearest::offered;
use crate::out::Out;
use crate::problem::{shown, Problem};
use crate::words::{cited, Choice, Words};
use std::ffi::OsString;
use std::ops::RangeInclusive;

/// What `--help` says of a command, and what it does.
pub struct Command {
    pub name: &'static str,
    /// The words that it takes, as `--help` shows them.
    pub usage: &'static str,
    /// What must be given, after "wants".
    pub wants: &'static str,
    /// How many words besides options.
    pub counts: RangeInclusive<usize>,
    pub choices: &'static [Choice],
    /// One line.
    pub says: &'static str,
    /// The rest, in paragraphs.
    pub more: &'static str,
    /// A command line that can be tried in the repository.
    pub example: &'static str,
    pub run: fn(&Words, &mut Out) -> Result<(), Problem>,
}

const COMMANDS: [&Command; 13] = [
    &check::COMMAND,
    &faults::COMMAND,
    &search::COMMAND,
    &dictionary::COMMAND,
    &compact::COMMAND,
    &audit::COMMAND,
    &suspects::COMMAND,
    &clauses::COMMAND,
    &values::COMMAND,
    &control::COMMAND,
    &narrow::COMMAND,
    &bench::COMMAND,
    &unfold::COMMAND,
];

impl Command {
    /// Its command line is not understood.
    pub fn misused(&self, what: &str) -> Problem {
        Problem::Stopped(format!("{} {what}; see ullimaqsu {} --help", self.name, self.name))
    }

    /// The command that the first word names.
    fn named(word: &OsString) -> Result<&'static Command, Problem> {
        let unknown = || {
            let (near, names) = (shown(word), COMMANDS.iter().map(|command| command.name));
            Problem::Stopped(format!("there is no command {}{}; see ullimaqsu --help", cited(word), offered(&near, names)))
        };
        COMMANDS.into_iter().find(|command| word == command.name).ok_or_else(unknown)
    }
}

/// Does what the words of a command line ask for.
pub fn run(words: Vec<OsString>, out: &mut Out) -> Result<(), Problem> {
    let mut words = words.into_iter();
    let Some(first) = words.next() else { return out.print(&help::all(&COMMANDS)) };
    let rest: Vec<OsString> = words.collect();
    match (first.to_str(), rest.as_slice()) {
        (Some("--version" | "-V"), []) => out.print(&help::version()),
        (Some("--help" | "-h" | "help"), []) => out.print(&help::all(&COMMANDS)),
        (Some("--help" | "-h" | "help"), [name]) => out.print(&help::of(Command::named(name)?)),
        (Some(word @ ("--version" | "-V" | "--help" | "-h" | "help")), [.., last]) => {
            Err(Problem::Stopped(format!("{} is one word too many after {word}; see ullimaqsu --help", cited(last))))
        }
        _ => {
            let command = Command::named(&first)?;
            if asks_for_help(&rest) {
                return out.print(&help::of(command));
            }
            (command.run)(&Words::read(command, rest)?, out)
        }
    }
}

/// `--help` is asked for anywhere before a `--`.
fn asks_for_help(words: &[OsString]) -> bool {
    words.iter().take_while(|word| *word != "--").any(|word| word == "--help" || word == "-h")
}

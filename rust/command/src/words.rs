//! The words of a command line: options, which begin with a dash, and the others in their order.
use crate::commands::Command;
use crate::nearest::offered;
use crate::problem::{shown, Problem};
use crate::replace::Place;
use std::ffi::{OsStr, OsString};
use std::path::Path;

/// The most letters of a word that a message has.
const MOST_CITED: usize = 40;

/// An option of a command.
pub struct Choice {
    pub name: &'static str,
    /// What its value is called, where it has one.
    pub value: Option<&'static str>,
    pub says: &'static str,
}

/// What a command was given. A word after `--` is no option, nor is a lone `-`.
#[derive(Debug)]
pub struct Words {
    chosen: Vec<(&'static str, OsString)>,
    rest: Vec<OsString>,
}

impl Words {
    /// Of a command that takes so many words besides its options.
    pub fn read(command: &Command, given: Vec<OsString>) -> Result<Words, Problem> {
        let mut words = Words { chosen: Vec::new(), rest: Vec::new() };
        let mut given = given.into_iter();
        while let Some(word) = given.next() {
            if word == "--" {
                words.rest.extend(given);
                break;
            }
            if word.len() < 2 || !word.as_encoded_bytes().starts_with(b"-") {
                words.rest.push(word);
                continue;
            }
            let choice = chosen(command, &word).ok_or_else(|| unknown(command, &word))?;
            if choice.value.is_some() && words.has(choice.name) {
                return Err(command.misused(&format!("takes {} once, and here it is given twice", choice.name)));
            }
            words.chosen.push((choice.name, value(command, choice, &mut given)?));
        }
        if !command.counts.contains(&words.rest.len()) {
            return Err(command.misused(&format!("wants {}", command.wants)));
        }
        Ok(words)
    }

    pub fn has(&self, option: &str) -> bool {
        self.value(option).is_some()
    }

    /// The value of an option.
    pub fn value(&self, option: &str) -> Option<&OsStr> {
        self.chosen.iter().find(|(name, _)| *name == option).map(|(_, value)| value.as_os_str())
    }

    /// The same as a file.
    pub fn file(&self, option: &str) -> Option<&Path> {
        self.value(option).map(Path::new)
    }

    /// The place of a file that an option asks for, none of the sources.
    pub fn place(&self, option: &str, sources: &[&Path]) -> Result<Option<Place>, Problem> {
        self.file(option).map(|path| Place::find(path, sources)).transpose()
    }

    /// The k-th word that is no option.
    pub fn path(&self, k: usize) -> Option<&Path> {
        self.rest.get(k).map(Path::new)
    }

    /// The same where the command always has it.
    pub fn at(&self, k: usize) -> &Path {
        self.path(k).expect("so many words were asked for")
    }

    /// The words that are no options, from the k-th on, as they are shown.
    pub fn from(&self, k: usize) -> impl Iterator<Item = String> + '_ {
        self.rest.iter().skip(k).map(|word| word.to_string_lossy().into_owned())
    }
}

/// The option that a word is.
fn chosen(command: &Command, word: &OsStr) -> Option<&'static Choice> {
    command.choices.iter().find(|choice| word == choice.name)
}

/// What follows an option as its value, or nothing where it has none. An option is no value: a file of that name is written with its directory.
fn value(command: &Command, choice: &Choice, given: &mut impl Iterator<Item = OsString>) -> Result<OsString, Problem> {
    let Some(called) = choice.value else { return Ok(OsString::new()) };
    let wants = |and: &str| command.misused(&format!("wants {called} after {}{and}", choice.name));
    match given.next() {
        None => Err(wants("")),
        Some(word) if word == "--" || chosen(command, &word).is_some() => Err(wants(&format!(", and here is {}", cited(word)))),
        Some(word) => Ok(word),
    }
}

fn unknown(command: &Command, word: &OsStr) -> Problem {
    let (names, text) = (command.choices.iter().map(|choice| choice.name), shown(word));
    // one letter is like any other
    let near = if text.starts_with("--") { offered(&text, names) } else { String::new() };
    command.misused(&format!("has no option {}{near}", cited(word)))
}

/// Whether a word has digits alone: Rust reads a sign too.
pub fn is_digits(word: &str) -> bool {
    word.bytes().all(|byte| byte.is_ascii_digit())
}

/// A word as a message has it; of a long one the beginning.
pub fn cited(word: impl AsRef<OsStr>) -> String {
    let word = shown(word);
    match word.char_indices().nth(MOST_CITED) {
        Some((end, _)) => format!("`{}..`", &word[..end]),
        None => format!("`{word}`"),
    }
}

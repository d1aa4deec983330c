//! What `--help` and `--version` print.
use crate::commands::Command;
use crate::filled::filled;
use crate::words::Choice;

/// How wide the left column of a list is.
const LEFT: usize = 14;

/// Which archive was linked, as whoever built the command says.
const ARCHIVE: &str = match option_env!("ULLIMAQSU_ARCHIVE") {
    Some(archive) => archive,
    None => "the archive that cargo linked",
};

/// A fact a line.
pub fn version() -> String {
    format!("ullimaqsu {}\nlinked with {ARCHIVE}\n", env!("CARGO_PKG_VERSION"))
}

/// All commands.
pub fn all(commands: &[&Command]) -> String {
    let rows: String = commands.iter().map(|command| row(command.name, command.says)).collect();
    format!("{BEFORE}\n{rows}\n{}", paragraphs(AFTER))
}

const BEFORE: &str = "\
ullimaqsu COMMAND ..
Proved test tools for combinational circuits and single stuck-at faults.
The library's answers are proved; this command, which reads files and prints
answers, is tested.
";

const AFTER: &str = "\
ullimaqsu COMMAND --help says what a command takes, with an example. ullimaqsu --version says what was linked.

A circuit is a text in the bench notation, or records (circuit.rec). The notation has no name for a selector: a circuit with selectors comes as records. A
text with flip-flops, Q = DFF(D), is read by unfold, dictionary --steps, faults and narrow. A fault is NAME/0 or NAME/1, the line of that name stuck at 0 or 1; or at a pin of its gate NAME.1/0 or NAME.1/1, the same with .2, and with .3 at the select
of a selector. A pattern has 0, 1 or X for each input, in the order of the lines. Files have one fault, one pattern or one report a line; blanks and comments, from # to
the end of the line, may stand in them.

Status: 0, or 1 where what was given is refused, or 2 where the command line or a report of a tester is not understood or something can't be read
or written.";

/// One command: its usage, what it does, its options and an example.
pub fn of(command: &Command) -> String {
    let Command { name, usage, says, more, example, choices, .. } = command;
    let options: String = choices.iter().map(|choice| row(&shown(choice), choice.says)).collect();
    // what is typed stays on one line, to be copied
    let parts = [format!("ullimaqsu {name} {usage}\n"), paragraphs(says), paragraphs(more), options, format!("Example: {example}\n")];
    parts.into_iter().filter(|part| !part.is_empty()).collect::<Vec<_>>().join("\n")
}

/// An option with its value.
fn shown(choice: &Choice) -> String {
    choice.value.map_or(choice.name.to_string(), |value| format!("{} {value}", choice.name))
}

/// A row of a list.
fn row(left: &str, right: &str) -> String {
    filled(&format!("  {left:LEFT$} "), right, LEFT + 3)
}

/// Paragraphs, between which there is an empty line.
fn paragraphs(text: &str) -> String {
    let paragraphs = text.split("\n\n").filter(|paragraph| !paragraph.is_empty());
    paragraphs.map(|paragraph| filled("", paragraph, 0)).collect::<Vec<_>>().join("\n")
}

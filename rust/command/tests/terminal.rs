//! On a terminal a search draws and erases its bar between the lines of the answer: what is left there is what a pipe gets. And the reports to
//! suspects are typed there.
mod harness;

use cases::Directory;
use harness::{example, printed, COMMAND};
use std::io::Write;
use std::process::{Command, Stdio};

/// What a terminal shows of what is written to it, without its edges.
#[derive(Default)]
struct Screen {
    rows: Vec<Vec<char>>,
    row: usize,
    column: usize,
}

impl Screen {
    fn after(written: &str) -> Screen {
        let mut screen = Screen { rows: vec![vec![]], ..Screen::default() };
        let mut rest = written;
        while let Some(letter) = rest.chars().next() {
            rest = match rest.strip_prefix("\x1b[K") {
                Some(after) => {
                    screen.erase();
                    after
                }
                None => {
                    screen.take(letter);
                    &rest[letter.len_utf8()..]
                }
            };
        }
        screen
    }

    /// From here to the end of the row.
    fn erase(&mut self) {
        self.rows[self.row].truncate(self.column);
    }

    fn take(&mut self, letter: char) {
        match letter {
            '\r' => self.column = 0,
            '\n' => {
                self.row += 1;
                self.rows.resize(self.rows.len().max(self.row + 1), vec![]);
            }
            _ => {
                assert!(!letter.is_control(), "this terminal knows no {letter:?}");
                let row = &mut self.rows[self.row];
                row.resize(row.len().max(self.column + 1), ' ');
                row[self.column] = letter;
                self.column += 1;
            }
        }
    }

    fn shown(&self) -> String {
        self.rows.iter().map(|row| row.iter().collect()).collect::<Vec<String>>().join("\n")
    }
}

#[test]
fn the_screen_itself() {
    let cases = [
        ("ab\r\nc\r\n", "ab\nc\n"),
        ("ab\rc", "cb"),
        ("ab\r\x1b[Kc", "c"),
        ("a\r\nbar\r\x1b[Kb\r\n", "a\nb\n"),
        // a feed alone stays in its column
        ("ab\nc", "ab\n  c"),
    ];
    cases.into_iter().for_each(|(written, shown)| assert_eq!(Screen::after(written).shown(), shown));
}

/// `script` of util-linux, which runs a command on a terminal of its own and passes on all that is written there.
fn on_a_terminal(line: &str) -> Command {
    let mut script = Command::new("script");
    script.args(["-qec", line, "/dev/null"]).env("SHELL", "/bin/sh");
    script
}

/// A word as a shell reads it.
fn quoted(word: &str) -> String {
    format!("'{}'", word.replace('\'', "'\\''"))
}

/// All that the command writes to a terminal, which is its standard output and its standard error, with what is typed there.
fn written(words: &[&str], typed: &str) -> String {
    let line = [COMMAND].iter().chain(words).map(|word| quoted(word)).collect::<Vec<_>>().join(" ");
    let mut script = on_a_terminal(&line);
    let mut process = script.stdin(Stdio::piped()).stdout(Stdio::piped()).spawn().expect("it starts");
    // nobody ends the input, which the terminal would show
    let mut keyboard = process.stdin.take().expect("piped");
    keyboard.write_all(typed.as_bytes()).expect("a keyboard");
    let output = process.wait_with_output().expect("it ends");
    drop(keyboard);
    assert_eq!(output.status.code(), Some(0));
    String::from_utf8(output.stdout).expect("text")
}

/// Whether there are terminals; says loudly what is not tried where there are none.
fn has_terminals(untried: &str) -> bool {
    let has = on_a_terminal("true").stdin(Stdio::null()).output().is_ok_and(|output| output.status.success());
    if !has {
        println!("ABSENT: `script` of util-linux gives no terminal, and {untried}");
    }
    has
}

#[test]
fn the_same_as_in_a_pipe() {
    if !has_terminals("what a search leaves on one was NOT compared") {
        return;
    }
    let c17 = example("c17").display().to_string();
    for form in [&[][..], &["--csv"], &["--json"], &["--heads", "--compare"], &["--heads", "--json"]] {
        let words = [&["search", &c17, "--all"], form].concat();
        let written = written(&words, "");
        assert!(written.matches("46 faults").count() > 3, "the bar is drawn more than once: {written:?}");
        assert_eq!(Screen::after(&written).shown(), printed(&words));
    }
}

/// Whoever sits there is told what to type. What is typed is shown by the terminal itself, sooner or later than what is printed.
#[test]
fn reports_are_typed() {
    if !has_terminals("reports were NOT typed") {
        return;
    }
    let directory = Directory::new("typed");
    let files = [directory.write("faults", "22/0\n22/1\n"), directory.write("patterns", "10100\n00000\n")];
    let [c17, faults, patterns] = [&example("c17"), &files[0], &files[1]].map(|path| path.display().to_string());
    let words = ["suspects", &c17, &faults, &patterns];
    let written = written(&words, "0 fail\n\u{4}");
    let invited = "type the number of a pattern and fail or pass, as in 0 fail; Ctrl-D ends\r\n";
    assert!(written.contains(invited), "{written:?}");
    assert!(written.contains("pattern 0 failed, 1 fault remains: 22/0\r\nnothing is left to tell apart\r\n"), "{written:?}");
    // where they come from a file nobody is asked
    let reports = directory.write("reports", "0 fail\n").display().to_string();
    let words = [&words[..], &[&reports]].concat();
    assert_eq!(self::written(&words, ""), printed(&words).replace('\n', "\r\n"));
}

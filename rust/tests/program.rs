//! The built dictionary program against the second program, in directories of every kind, and on the examples.
#[path = "harness/command.rs"]
mod command;
#[path = "harness/directories.rs"]
mod directories;
#[path = "harness/x86.rs"]
mod x86;

use cases::directory::root;
use cases::selects::{self, EVERY};
use cases::{drawn, Random, Tally};
use command::{run, script, ullimaqsu};
use directories::{boundaries, damaged, directory_of, sound};
use second::Files;
use std::path::Path;
use std::process::Command;
use std::time::Instant;
use std::{fs, thread};
use x86::program;

/// What the program prints in a directory.
fn printed(directory: &Path) -> String {
    let command = program("target/bin/dictionary_program").current_dir(directory).output().expect("sh runs");
    assert!(command.status.success() && command.stderr.is_empty(), "{command:?}");
    String::from_utf8(command.stdout).expect("text")
}

/// Runs the program in a directory for each case, and counts the refusals, 0 for none.
fn compare(name: &str, cases: Vec<Files>) -> Tally {
    let began = Instant::now();
    let share = cases.len().div_ceil(thread::available_parallelism().map_or(1, |count| count.get()));
    let one = |(number, files): (usize, &Files)| {
        let directory = directory_of(&format!("{name}-{number}"), files);
        let (said, right) = (printed(&directory.0), second::program(files));
        assert_eq!(said, right, "{name}, {files:?}");
        match right.strip_prefix("refused ") {
            Some(rest) => rest.split(' ').next().and_then(|number| number.parse().ok()).expect("a number"),
            None => 0,
        }
    };
    let numbered: Vec<_> = cases.iter().enumerate().collect();
    let numbers: Vec<u32> = thread::scope(|scope| {
        let threads: Vec<_> =
            numbered.chunks(share).map(|part| scope.spawn(move || part.iter().map(|&case| one(case)).collect::<Vec<u32>>())).collect();
        threads.into_iter().flat_map(|thread| thread.join().expect("no difference")).collect()
    });
    let mut tally = Tally::default();
    for (number, files) in numbers.into_iter().zip(&cases) {
        tally.count(number);
        if let (0, Some(circuit), Some(faults)) = (number, &files.circuit, &files.faults) {
            tally.count_sorts(selects::all(circuit, faults, &[]));
        }
    }
    println!("program, {name}: {tally}, {:.1} s", began.elapsed().as_secs_f64());
    tally
}

#[test]
fn sound_directories() {
    assert_eq!(compare("sound", drawn(1, 120, sound).collect()).with_sorts(&EVERY[..2]).seen(), [0]);
}

#[test]
fn damaged_directories() {
    assert_eq!(compare("damaged", drawn(2, 240, damaged).collect()).with_sorts(&EVERY[..1]).seen(), [0, 1, 2, 4, 5, 6, 7, 8, 9]);
}

#[test]
fn sizes() {
    assert_eq!(compare("sizes", boundaries(&mut Random::new(3))).with_sorts(&EVERY[..2]).seen(), [0, 1, 4, 6, 8]);
}

/// The examples of records print what stands beside them, and so does the second program.
#[test]
fn examples() {
    let examples = root().join("examples");
    let all = fs::read_dir(&examples).expect("examples").map(|entry| entry.expect("an example").file_name());
    let mut of_records: Vec<_> = all.filter(|name| examples.join(name).join("circuit.rec").exists()).collect();
    of_records.sort();
    assert_eq!(of_records, ["a", "c17", "selector"]);
    for directory in of_records.iter().map(|name| examples.join(name)) {
        let output = fs::read_to_string(directory.join("output")).expect("output");
        assert_eq!(printed(&directory), output, "{directory:?}");
        let file = |file| Some(fs::read(directory.join(file)).expect("a file"));
        let files = Files { circuit: file("circuit.rec"), faults: file("faults.rec"), patterns: file("patterns.rec") };
        assert_eq!(second::program(&files), output, "{directory:?}");
    }
}

/// `./ullimaqsu dictionary` prints what the program prints, unless there is no standard output. All else that it says is held to the second
/// program where the command is.
#[test]
fn command_line() {
    let c17 = root().join("examples/c17");
    let output = fs::read_to_string(c17.join("output")).expect("output");
    let words = [Path::new("dictionary"), &c17];
    assert_eq!(ullimaqsu(&words), (Some(0), output, String::new()));
    let closed = "ullimaqsu: standard output is closed\n";
    let mut shell = Command::new("sh");
    shell.args(["-c", "exec \"$@\" >&-", "sh"]).arg(script()).args(words);
    assert_eq!(run(&mut shell), (Some(2), String::new(), closed.to_string()));
}

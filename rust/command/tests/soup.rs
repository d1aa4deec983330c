//! Words and files in no order: whatever is given, a command ends with its answer or with one line, and then has written nothing.
mod harness;

use cases::{circuits, drawn, texts, Directory, Random, Tally};
use harness::{said, Said, COMMAND};
use std::collections::{BTreeMap, BTreeSet};
use std::fs;
use std::process::Command;

/// Files that go with each other, by name.
const FILES: [(&str, &[u8]); 6] = [
    ("circuit", b"INPUT(a)\nINPUT(b)\nOUTPUT(y)\ny = AND(a, b)\n"),
    ("clocked", b"INPUT(a)\nb = DFF(y)\nOUTPUT(y)\ny = AND(a, b)\n"),
    ("faults", b"y/0\ny.1/1 # a pin\n\na/1\n"),
    ("patterns", b"01\n1X\n x 0\n"),
    ("marks", b"K D\nK\n"),
    ("reports", b"0 fail\n2 P # again\n"),
];

/// Right command lines on those files, each with its options.
const LINES: [(&str, &[&str]); 16] = [
    ("check circuit", &["--heads"]),
    ("faults circuit", &["--pins", "--collapse", "-o"]),
    ("search circuit y/0", &["--budget", "-o", "--csv", "--json"]),
    ("search circuit --all", &["--faults", "-o", "--csv", "--json"]),
    ("search circuit --heads y/0", &["--all", "--compare", "--budget", "-o", "--csv", "--json"]),
    ("dictionary circuit faults patterns", &["--csv", "--json"]),
    ("compact circuit faults patterns", &["-o", "--marks", "--csv", "--json"]),
    ("audit circuit faults patterns marks", &["--csv", "--json"]),
    ("suspects circuit faults patterns reports", &["--csv", "--json"]),
    ("clauses circuit a/1", &["--comments", "-o"]),
    ("values circuit 1X y.1/0", &["--svg", "--csv", "--json"]),
    ("control circuit", &[]),
    ("narrow circuit", &["-o"]),
    ("bench circuit", &[]),
    ("unfold clocked 2", &["--lines"]),
    ("dictionary clocked faults patterns --steps 1", &["--csv", "--json"]),
];

const FLAGS: [&str; 13] =
    ["--all", "--heads", "--compare", "--lines", "--pins", "--collapse", "--csv", "--json", "--comments", "--", "-", "-x", "--help"];
const TAKE_A_VALUE: [&str; 6] = ["--budget", "--faults", "-o", "--marks", "--svg", "--steps"];
const WORDS: [&str; 16] =
    ["y/0", "a/1", "y.1/0", "y.3/0", "/", ".", ".1", "", "01", "1X", "0 1", "2", "99", "\u{e9}/\u{1b}0", "0/0", "new"];

/// A file: most often as it goes with the others, else of any sort.
fn file(random: &mut Random, fitting: &[u8]) -> Vec<u8> {
    match random.below(24) {
        0 => texts::small(random),
        1 => texts::damaged(random),
        2 => texts::soup(random),
        3 => circuits::small(random),
        4 => random.pick(&FILES).1.to_vec(),
        5 => b"INPUT(a)\nOUTPUT(y)\ny = nand(a, a, a)\n".to_vec(),
        6 => {
            let len = random.below(40);
            random.junk(len)
        }
        _ => fitting.to_vec(),
    }
}

/// A word of any sort, or a file's name.
fn word(random: &mut Random) -> String {
    let name = random.pick(&FILES).0;
    if random.once_in(3) { name } else { random.pick(&WORDS) }.to_string()
}

/// A command line: a right one, now and then with another word, an option, or a word less or more.
fn words(random: &mut Random) -> Vec<String> {
    let (line, options) = random.pick(&LINES);
    let mut words: Vec<String> = line.split(' ').map(String::from).collect();
    for any in &mut words[1..] {
        if random.once_in(12) {
            *any = word(random);
        }
    }
    match random.below(8) {
        0 => drop(words.pop()),
        1 => words.push(word(random)),
        2..=5 => {
            let options = if options.is_empty() || random.once_in(4) { [&FLAGS[..], &TAKE_A_VALUE].concat() } else { options.to_vec() };
            let option = random.pick(&options);
            words.push(option.to_string());
            if TAKE_A_VALUE.contains(&option) && !random.once_in(8) {
                words.push(if random.once_in(2) { "new".to_string() } else { word(random) });
            }
        }
        _ => (),
    }
    words
}

/// The files of a directory.
fn files(directory: &Directory) -> BTreeMap<String, Vec<u8>> {
    directory.names().into_iter().map(|name| (name.clone(), fs::read(directory.path(&name)).expect("a file"))).collect()
}

/// Runs a command line where the files are, and gives what it says, and the files that are new or changed.
fn in_its_directory(random: &mut Random, words: &[String]) -> (Said, Vec<String>) {
    let directory = Directory::new("soup");
    FILES.iter().for_each(|(name, fitting)| drop(directory.write(name, file(random, fitting))));
    let before = files(&directory);
    let mut output = Command::new(COMMAND).args(words).current_dir(&directory.0).output().expect("it starts");
    // narrow prints comments as they are, and these may be bytes of any sort
    output.stdout = String::from_utf8_lossy(&output.stdout).into_owned().into_bytes();
    let said = said(output);
    let after = files(&directory);
    assert!(before.keys().all(|name| after.contains_key(name)), "{words:?}: a file is gone");
    let written = after.into_iter().filter(|(name, bytes)| before.get(name) != Some(bytes)).map(|(name, _)| name).collect();
    (said, written)
}

#[test]
fn any_words_and_files() {
    let (mut tally, mut writers) = (Tally::default(), BTreeSet::new());
    let one = |random: &mut Random| {
        let words = words(random);
        (in_its_directory(random, &words), words)
    };
    for (((status, printed, said), written), words) in drawn(1, 1200, one) {
        let status = status.expect("no signal");
        tally.count(status as u32);
        // an audit prints what it finds, and suspects go on after a report that is not understood
        let lines = match (words[0].as_str(), status, printed.is_empty()) {
            ("audit", 1, false) => 0..=0,
            ("suspects", 2, false) => 1..=usize::MAX,
            _ => usize::from(status > 0)..=usize::from(status > 0),
        };
        assert!(lines.contains(&said.lines().count()), "{words:?}: {said}");
        assert!(said.lines().all(|line| line.starts_with("ullimaqsu: ")), "{words:?}: {said}");
        // what is written is named last, and is no file that was read
        assert!(status == 0 || written.is_empty(), "{words:?} wrote {written:?}: {said}");
        let asked = |name: &String| words.iter().skip(2).next_back() == Some(name) || words[0] == "bench" && name == "circuit.rec";
        // a command and a file are both called faults
        let times = |name: &String| words.iter().skip(1).filter(|word| *word == name).count();
        let read = |name: &String| FILES.iter().any(|(file, _)| file == name) && times(name) > 1;
        assert!(written.iter().all(|name| asked(name) && !read(name)), "{words:?} wrote {written:?}");
        if !written.is_empty() {
            writers.insert(words[0].clone());
        }
    }
    println!("soup: {tally}");
    assert_eq!(tally.seen(), [0, 1, 2]);
    assert_eq!(Vec::from_iter(&writers), ["bench", "clauses", "compact", "faults", "narrow", "search", "unfold", "values"]);
}

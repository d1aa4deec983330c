//! `ullimaqsu search` against the second program: every line that is printed, in every form.
mod harness;

use cases::{circuits, drawn, texts, Directory, Random};
use harness::json::Json;
use harness::named::Named;
use harness::searched::{csv, is_table, json, totals};
use harness::{example, into_broken, into_full, printed, refused, selectors, stopped, ullimaqsu};
use second::search::{search_circuit, Search};
use second::Fault;
use std::fs;
use std::path::Path;

/// What the second program finds for each fault.
fn found(named: &Named, faults: &[Fault], budget: u64) -> Vec<Search> {
    faults.iter().map(|&fault| search_circuit(&named.circuit, fault, budget)).collect()
}

/// All forms of all faults of a circuit.
fn compare(path: &Path, named: &Named, budget: u64) -> [usize; 3] {
    let faults = named.faults(true);
    let found = found(named, &faults, budget);
    let budget = budget.to_string();
    let search = |more: &[&str]| {
        let words = ["search", path.to_str().expect("text"), "--all", "--budget", &budget];
        printed(&[&words[..], more].concat())
    };
    is_table(&search(&[]), named, &faults, &found, &[]);
    assert_eq!(search(&["--csv"]), csv(named, &faults, &found));
    assert_eq!(Json::read(&search(&["--json"])), json(named, &faults, &found));
    totals(&found)
}

/// Among them one with more faults than a call takes.
#[test]
fn examples() {
    for (name, budget) in [("c17", 1_000_000), ("decoder4", 1_000_000), ("multiplier4", 300), ("parity16", 100), ("adder16", 40)] {
        let totals = compare(&example(name), &Named::of_file(&example(name)), budget);
        assert!(name != "multiplier4" || totals.iter().sum::<usize>() > 256, "{totals:?}");
    }
    let path = selectors("circuit");
    assert_eq!(compare(&path, &Named::of_file(&path), 1_000_000), [36, 0, 0]);
}

#[test]
fn random_circuits() {
    let directory = Directory::new("search");
    let mut seen = [0; 3];
    let mut count = |totals: [usize; 3]| (0..3).for_each(|k| seen[k] += totals[k]);
    let few = |text: &Vec<u8>| Named::of_text(text).inputs().len() < 8;
    for (k, text) in drawn(1, 60, texts::small).filter(few).enumerate() {
        count(compare(&directory.write("text", &text), &Named::of_text(&text), [3, 20, u64::MAX][k % 3]));
    }
    for (k, records) in drawn(2, 30, circuits::few_inputs).enumerate() {
        count(compare(&directory.write("records", &records), &Named::of_records(&records), [0, 9, 1000][k % 3]));
    }
    assert!(seen.iter().all(|&times| times > 50), "{seen:?}");
}

/// 64 inputs: nothing is known of a parity before all of them are. The first vector is the 65th node, and a test for one of two faults.
#[test]
fn many_inputs() {
    let directory = Directory::new("parity");
    let path = directory.write("parity.rec", circuits::parity());
    let said = printed(&["search", path.to_str().expect("text"), "126/0", "0/1", "--budget", "65"]);
    let named = Named::of_records(&circuits::parity());
    let faults: Vec<Fault> =
        ["126/0", "0/1"].map(|word| named.faults(true).into_iter().find(|&fault| named.word(fault) == word).expect("a fault")).into();
    is_table(&said, &named, &faults, &found(&named, &faults, 65), &[]);
    assert!(said.ends_with("2 faults: 1 test, 0 redundant, 1 given up\n"), "{said}");
}

/// Without a budget the search looks at 100,000 nodes, here of the 2^65 that it would need: a parity and its opposite are never both 1.
#[test]
fn the_budget_if_nothing_is_said() {
    let directory = Directory::new("budget");
    let never = [circuits::record(circuits::NOT, false, 126, 0), circuits::record(circuits::AND, true, 126, 127)].concat();
    let path = directory.write("never.rec", [circuits::parity(), never].concat());
    let said = printed(&["search", path.to_str().expect("text"), "128/0", "--csv"]);
    assert!(said.ends_with(&format!("\n128/0,given up,100000{}\n", ",".repeat(64))), "{said}");
}

/// Faults as words and as a file give the same; and each test, used as a pattern, fails its fault.
#[test]
fn tests_as_patterns() {
    let directory = Directory::new("tests");
    let circuit = example("multiplier4");
    let (circuit, list, out) = (circuit.to_str().expect("text"), directory.path("list"), directory.path("tests"));
    let [list, out] = [&list, &out].map(|path| path.to_str().expect("text"));
    printed(&["faults", circuit, "--pins", "-o", list]);
    let table = printed(&["search", circuit, "--faults", list, "-o", out]);
    assert_eq!(table, printed(&["search", circuit, "--all"]));
    let faults = directory.read("list");
    let words: Vec<&str> = ["search", circuit].into_iter().chain(faults.lines()).collect();
    assert_eq!(printed(&words), table);

    // each test stands beside its fault, and fails it
    let tests = directory.read("tests");
    let tested: Vec<&str> = tests.lines().map(|line| line.split_once(" # ").expect("a comment").1).collect();
    let outcome = |fault: &&str| table.lines().any(|line| line.split_whitespace().take(2).eq([fault, "test"]));
    assert_eq!(tested, faults.lines().filter(outcome).collect::<Vec<_>>());
    directory.write("list", tested.join("\n"));
    let dictionary = Json::read(&printed(&["dictionary", circuit, list, out, "--json"]));
    let entries = dictionary.at("entries").texts();
    assert!(entries.len() > 256 && entries.iter().enumerate().all(|(k, row)| row.as_bytes()[k] == b'F'));
}

/// A redundant fault has no test in the file.
#[test]
fn redundant() {
    let directory = Directory::new("redundant");
    let path = directory.write("always 0", circuits::always_0());
    let out = directory.path("tests");
    let words = ["search", path.to_str().expect("text"), "2/0", "2/1", "-o", out.to_str().expect("text")];
    let table = "fault outcome   nodes 0\n2/0   redundant     3\n2/1   test          2 0\n2 faults: 1 test, 1 redundant, 0 given up\n";
    assert_eq!(printed(&words), table);
    assert_eq!(directory.read("tests"), "0 # 2/1\n");
}

#[test]
fn what_is_wrong() {
    let c17 = example("c17");
    let search = |words: &[&str]| ullimaqsu(&[&["search", c17.to_str().expect("text")], words].concat());
    let no_fault = |word| {
        format!("`{word}` is no fault: it is written NAME/0 or NAME/1, at a pin NAME.1/0 or NAME.2/0, and at a selector's select NAME.3/0")
    };
    let no_value = |word| format!("`{word}` is no fault: after `/` there must be 0 or 1, what the line is stuck at");
    let refusals = [
        ("10", no_fault("10")),
        ("", no_fault("")),
        ("10/2", no_value("10/2")),
        ("10/", no_value("10/")),
        ("10/01", no_value("10/01")),
        ("109/0", "there is no line `109`; the nearest names are `10` and `19`".to_string()),
        ("12/0", "there is no line `12`; the nearest names are `1`, `2` and `10`".to_string()),
        ("2x3/0", "there is no line `2x3`; the nearest name is `23`".to_string()),
        ("nothing/0", "there is no line `nothing`".to_string()),
        ("/1", "there is no line ``".to_string()),
        ("10.3/0", "`10` has no pin `3`: it is NAND with pins 1 and 2".to_string()),
        ("10.0/0", "`10` has no pin `0`: it is NAND with pins 1 and 2".to_string()),
        ("10.1.1/0", "`10` has no pin `1.1`: it is NAND with pins 1 and 2".to_string()),
        ("1.1/0", "`1` has no pin `1`: it is INPUT with no pins".to_string()),
    ];
    for (word, line) in refusals {
        assert_eq!(search(&["22/0", word]), refused(&line), "{word}");
    }
    let wants = stopped("search wants a circuit and then faults, or --all, or --faults FILE; see ullimaqsu search --help");
    for words in [&[][..], &["10/0", "--all"], &["--all", "--faults", "list"], &["10/0", "--faults", "list"]] {
        assert_eq!(search(words), wants, "{words:?}");
    }
    for budget in ["x", "-1", "1.5", "18446744073709551616", ""] {
        let line = format!("search wants a number of nodes after --budget, and `{budget}` is none; see ullimaqsu search --help");
        assert_eq!(search(&["--all", "--budget", budget]), stopped(&line));
    }
    assert_eq!(search(&["--all", "--budget"]), stopped("search wants N after --budget; see ullimaqsu search --help"));
    let both = "search prints --csv or --json, not both; see ullimaqsu search --help";
    assert_eq!(search(&["--all", "--csv", "--json"]), stopped(both));
    assert_eq!(search(&["--faults", "no such list"]), stopped("there is no file no such list"));
}

/// Who no longer reads is told nothing, and nothing is written where not all could be printed.
#[test]
fn nobody_reads() {
    let directory = Directory::new("unread search");
    directory.write("old", "tests of old");
    for name in ["old", "new"] {
        let (circuit, out) = (example("c17"), directory.path(name));
        let words = ["search", circuit.to_str().expect("text"), "--all", "-o", out.to_str().expect("text")];
        assert_eq!(into_broken(&words), (Some(141), String::new(), String::new()));
        assert_eq!(into_full(&words), stopped("standard output could not be written: No space left on device"));
    }
    assert_eq!((directory.read("old").as_str(), directory.names()), ("tests of old", vec!["old".to_string()]));
}

/// That the tests can't be written is said before anything is searched, and nothing is written over what is read.
#[test]
fn places() {
    let directory = Directory::new("places");
    let (circuit, list) = (directory.write("c17.bench", fs::read(example("c17")).expect("c17")), directory.write("list", "22/0\n"));
    let search = |to: &Path| ullimaqsu(&[Path::new("search"), &circuit, Path::new("--faults"), &list, Path::new("-o"), to]);
    for source in [&circuit, &list] {
        assert_eq!(search(source), stopped(&format!("{} is one of the files that are read", source.display())));
    }
    let missing = directory.path("missing/tests");
    assert_eq!(search(&missing), stopped(&format!("the directory of {} is missing or can't be entered", missing.display())));
    assert_eq!((directory.read("list").as_str(), directory.names()), ("22/0\n", vec!["c17.bench".to_string(), "list".to_string()]));
}

/// A large circuit, with a piece of its faults.
#[test]
fn the_largest() {
    let directory = Directory::new("largest search");
    let text = texts::largest(&mut Random::new(5), 2048, 64);
    let (path, named) = (directory.write("largest.bench", &text), Named::of_text(&text));
    let faults: Vec<Fault> = named.faults(true).into_iter().step_by(17).take(300).collect();
    let list = directory.write("list", named.fault_lines(&faults));
    let words = ["search", path.to_str().expect("text"), "--faults", list.to_str().expect("text"), "--budget", "3", "--csv"];
    assert_eq!(printed(&words), csv(&named, &faults, &found(&named, &faults, 3)));
}

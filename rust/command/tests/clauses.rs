//! `ullimaqsu clauses` against the second program, and what real solvers make of it.
mod harness;

use cases::{circuits, drawn, texts, Directory, Random};
use harness::named::Named;
use harness::{example, examples, printed, refused, stopped, ullimaqsu};
use second::clauses::clauses_of;
use second::search::{search_circuit, Outcome};
use second::{Entry, Fault};
use std::fs;
use std::io::Write;
use std::path::Path;
use std::process::{Command, Stdio};

/// The DIMACS form of the second program's clauses.
fn dimacs(named: &Named, fault: Fault) -> String {
    let clauses = clauses_of(&named.circuit, fault);
    let variables = 2 * named.names.len() + 1 + named.circuit.outputs().count();
    let clause = |clause: &Vec<i32>| clause.iter().map(|literal| format!("{literal} ")).collect::<String>() + "0\n";
    format!("p cnf {variables} {}\n", clauses.len()) + &clauses.iter().map(clause).collect::<String>()
}

/// What the variables mean, one a line.
fn comments(named: &Named, fault: Fault) -> String {
    let lines = named.names.iter().flat_map(|name| [format!("good value of {name}"), format!("faulty value of {name}")]);
    let differences = named.circuit.outputs().map(|line| format!("difference at {}", named.names[line]));
    let all = lines.chain(["stuck value".to_string()]).chain(differences);
    let meaning: String = (1..).zip(all).map(|(variable, means)| format!("c {variable} {means}\n")).collect();
    format!("c can be satisfied exactly if {} has a test\n{meaning}", named.word(fault))
}

fn clauses(path: &Path, fault: &str, more: &[&str]) -> String {
    printed(&[&["clauses", path.to_str().expect("text"), fault], more].concat())
}

/// Some faults of a circuit, to standard output and into a file, with comments and without.
fn compare(directory: &Directory, random: &mut Random, path: &Path, named: &Named) {
    for fault in named.given(random, 3, 1).faults {
        let (word, right) = (named.word(fault), dimacs(named, fault));
        assert_eq!(clauses(path, &word, &[]), right);
        let file = directory.path("clauses.cnf");
        assert_eq!(clauses(path, &word, &["--comments", "-o", file.to_str().expect("text")]), "");
        assert_eq!(directory.read("clauses.cnf"), comments(named, fault) + &right);
    }
}

#[test]
fn all_examples() {
    let (directory, mut random) = (Directory::new("clauses of examples"), Random::new(1));
    for path in examples() {
        compare(&directory, &mut random, &path, &Named::of_file(&path));
    }
}

#[test]
fn random_circuits() {
    let (directory, mut random) = (Directory::new("clauses"), Random::new(2));
    for text in drawn(3, 60, texts::small) {
        compare(&directory, &mut random, &directory.write("text", &text), &Named::of_text(&text));
    }
    for records in drawn(4, 60, circuits::small) {
        compare(&directory, &mut random, &directory.write("records", &records), &Named::of_records(&records));
    }
    let largest = circuits::circuit(&mut random, 2048, 64);
    compare(&directory, &mut random, &directory.write("records", &largest), &Named::of_records(&largest));
}

/// Each with the words that make it read standard input and write its model to standard output.
const SOLVERS: [&[&str]; 3] = [&["minisat", "-verb=0", "/dev/stdin", "/dev/stdout"], &["cadical", "-q"], &["picosat"]];

/// How a solver ends: 10 with a model, 20 where there is none. Nothing where it is not installed.
fn solve(solver: &[&str], dimacs: &str) -> Option<(i32, Vec<i32>)> {
    let started = Command::new(solver[0]).args(&solver[1..]).stdin(Stdio::piped()).stdout(Stdio::piped()).spawn();
    let mut process = started.ok()?;
    process.stdin.take().expect("piped").write_all(dimacs.as_bytes()).expect("the solver reads");
    let output = process.wait_with_output().expect("the solver ends");
    let said = String::from_utf8(output.stdout).expect("text");
    let literals =
        |line: &str| line.trim_start_matches("v ").split_whitespace().map(|word| word.parse().ok()).collect::<Option<Vec<i32>>>();
    Some((output.status.code().expect("it ends by itself"), said.lines().filter_map(literals).flatten().collect()))
}

/// Solvers read what is printed, comments and all: they find a model exactly if the second program finds a test, and the inputs of the model are
/// a test. `.ci/solvers` installs them.
#[test]
fn solvers() {
    let (directory, mut random) = (Directory::new("solved clauses"), Random::new(5));
    let present: Vec<&[&str]> = SOLVERS.into_iter().filter(|solver| solve(solver, "p cnf 1 1\n1 0\n").is_some()).collect();
    let absent = SOLVERS.into_iter().filter(|solver| !present.contains(solver));
    absent.for_each(|solver| println!("ABSENT: {} is not installed, and does NOT read the clauses", solver[0]));
    let mut seen = [0; 2];
    for records in drawn(6, 40, circuits::few_inputs) {
        let (path, named) = (directory.write("records", &records), Named::of_records(&records));
        for fault in named.given(&mut random, 2, 1).faults {
            let has_test = search_circuit(&named.circuit, fault, u64::MAX).outcome == Outcome::Test;
            seen[usize::from(has_test)] += 1;
            let printed = clauses(&path, &named.word(fault), &["--comments"]);
            for solver in &present {
                let (status, model) = solve(solver, &printed).expect("it was there");
                assert_eq!(status, if has_test { 10 } else { 20 }, "{} {printed}", solver[0]);
                let value = |line: usize| Some(model.contains(&(2 * line as i32 + 1)));
                let vector: Vec<_> = named.circuit.inputs().map(value).collect();
                assert!(!has_test || named.circuit.entry(&vector, fault) == Entry::Fail, "{} {printed}", solver[0]);
            }
        }
    }
    println!("clauses to {} solvers: {} with a test, {} without", present.len(), seen[1], seen[0]);
    assert!(seen.iter().all(|&count| count > 5), "{seen:?}");
}

#[test]
fn what_is_refused() {
    let directory = Directory::new("no clauses");
    let path = directory.write("c17.bench", fs::read(example("c17")).expect("c17"));
    let words = |more: &[&str]| ullimaqsu(&[&["clauses", path.to_str().expect("text")], more].concat());
    assert_eq!(words(&["99/0"]), refused("there is no line `99`; the nearest name is `19`"));
    assert_eq!(words(&["22/2"]), refused("`22/2` is no fault: after `/` there must be 0 or 1, what the line is stuck at"));
    assert_eq!(words(&[]), stopped("clauses wants a circuit and a fault; see ullimaqsu clauses --help"));
    assert_eq!(words(&["22/0", "22/1"]), stopped("clauses wants a circuit and a fault; see ullimaqsu clauses --help"));
    let (status, _, said) = words(&["22/0", "-o", path.to_str().expect("text")]);
    assert_eq!((status, said.lines().count()), (Some(2), 1), "{said}");
    assert_eq!(fs::read(&path).expect("c17"), fs::read(example("c17")).expect("c17"));
    assert_eq!(directory.names(), ["c17.bench"]);
}

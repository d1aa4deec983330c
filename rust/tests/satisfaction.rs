//! What the written clauses mean: over all assignments on tiny circuits, and to the SAT solvers minisat, cadical and picosat, whose answers
//! are held to the search's verdict and to all vectors, and whose models to the simulation. A solver that is missing fails the test;
//! `.ci/solvers` installs it.
use cases::circuits::{circuit, selectors};
use cases::faults::{every, some};
use cases::selects::{self, EVERY};
use cases::{drawn, marked, Random, Tally};
use second::{Circuit, Entry, Fault, Pattern};
use std::collections::HashSet;
use std::io::Write;
use std::process::{Command, Stdio};
use std::time::Instant;
use ullimaqsu::Outcome;

/// The clauses that the library writes for a circuit and a fault.
struct List {
    words: Vec<i32>,
    clauses: u64,
    variables: usize,
}

impl List {
    /// Asks for the number of words first.
    fn of(circuit: &[u8], fault: &[u8]) -> List {
        let needed = ullimaqsu::clauses(circuit, fault, &mut []).expect_err("no room").place;
        let mut words = vec![0; needed as usize];
        let written = ullimaqsu::clauses(circuit, fault, &mut words).expect("room");
        assert_eq!(written.words, needed);
        List { words, clauses: written.clauses, variables: written.variables as usize }
    }

    fn is_satisfied(&self, truth: impl Fn(i32) -> bool) -> bool {
        let mut clauses = self.words.strip_suffix(&[0]).expect("closed").split(|&word| word == 0);
        clauses.all(|clause| clause.iter().any(|&literal| truth(literal.abs()) == (literal > 0)))
    }

    /// As the solvers read it.
    fn dimacs(&self) -> String {
        let word = |&word: &i32| if word == 0 { "0\n".to_string() } else { format!("{word} ") };
        format!("p cnf {} {}\n", self.variables, self.clauses) + &self.words.iter().map(word).collect::<String>()
    }
}

/// The truths of all variables, from 1, that belong to a complete pattern: good and faulty values line by line, the stuck value, the
/// differences.
fn assignment(circuit: &Circuit, fault: Fault, vector: &Pattern) -> Vec<bool> {
    let known = |fault| circuit.values(vector, fault).into_iter().map(|value| value.expect("no X")).collect::<Vec<_>>();
    let (good, faulty) = (known(None), known(Some(fault)));
    let lines = (0..good.len()).flat_map(|line| [good[line], faulty[line]]);
    let differences = circuit.outputs().map(|line| good[line] != faulty[line]);
    lines.chain([fault.stuck]).chain(differences).collect()
}

/// Every complete pattern of so many inputs.
fn vectors(inputs: usize) -> impl Iterator<Item = Pattern> {
    (0..1 << inputs).map(move |bits: usize| (0..inputs).map(|input| Some(bits >> input & 1 == 1)).collect())
}

/// On tiny circuits and the marked ones with a selector, with all their faults, exactly those assignments satisfy the clauses that belong to a
/// detecting vector.
#[test]
fn all_assignments() {
    let tiny = |random: &mut Random| {
        let lines = 1 + random.below(4);
        let inputs = 1 + random.below(lines);
        circuit(random, lines, inputs)
    };
    let (mut satisfied, mut unsatisfied, mut tally) = (0, 0, Tally::default());
    for bytes in drawn(1, 150, tiny).chain(marked::selectors().map(|marked| marked.circuit)) {
        let circuit = Circuit::read(&bytes).expect("sound");
        for record in every(&bytes) {
            let fault = Fault::read_all(&circuit, &record, 1).expect("sound")[0];
            let list = List::of(&bytes, &record);
            let detecting = vectors(circuit.inputs().count()).filter(|vector| circuit.entry(vector, fault) == Entry::Fail);
            let expected: HashSet<Vec<bool>> = detecting.map(|vector| assignment(&circuit, fault, &vector)).collect();
            let all = (0..1usize << list.variables).map(|bits| (0..list.variables).map(|k| bits >> k & 1 == 1).collect::<Vec<bool>>());
            let found: HashSet<Vec<bool>> = all.filter(|truths| list.is_satisfied(|variable| truths[variable as usize - 1])).collect();
            assert_eq!(found, expected, "{bytes:?} {record:?}");
            *if found.is_empty() { &mut unsatisfied } else { &mut satisfied } += 1;
            tally.count(0);
            tally.count_sorts(selects::all(&bytes, &record, &[]));
        }
    }
    println!("clauses over all assignments: {satisfied} lists satisfied, {unsatisfied} not; {}", tally.with_sorts(&EVERY[..2]));
    assert!(satisfied > 100 && unsatisfied > 100);
}

/// Each with the words that make it read standard input and write its model to standard output.
const SOLVERS: [&[&str]; 3] = [&["minisat", "-verb=0", "/dev/stdin", "/dev/stdout"], &["cadical", "-q"], &["picosat"]];

/// The literals of a model, or nothing if there is none.
fn solve(solver: &[&str], dimacs: &str) -> Option<Vec<i32>> {
    let started = Command::new(solver[0]).args(&solver[1..]).stdin(Stdio::piped()).stdout(Stdio::piped()).spawn();
    let mut process = started.unwrap_or_else(|error| panic!("{} does not start: {error}", solver[0]));
    process.stdin.take().expect("piped").write_all(dimacs.as_bytes()).expect("the solver reads");
    let output = process.wait_with_output().expect("the solver ends");
    match output.status.code() {
        Some(10) => {
            let said = String::from_utf8(output.stdout).expect("text");
            let literals =
                |line: &str| line.trim_start_matches("v ").split_whitespace().map(|word| word.parse().ok()).collect::<Option<Vec<i32>>>();
            Some(said.lines().filter_map(literals).flatten().filter(|&literal| literal != 0).collect())
        }
        Some(20) => None,
        other => panic!("{} ended with {other:?}", solver[0]),
    }
}

/// A circuit and one of its faults.
fn drawn_fault(random: &mut Random, lines: usize, inputs: usize) -> (Vec<u8>, Vec<u8>) {
    let circuit = circuit(random, lines, inputs);
    let fault = some(random, &circuit, 1);
    (circuit, fault)
}

#[test]
fn solvers_agree_with_search_and_all_vectors() {
    let began = Instant::now();
    let few = drawn(2, 500, |random| {
        let (lines, inputs) = (8 + random.below(60), 1 + random.below(8));
        drawn_fault(random, lines, inputs)
    });
    let more = drawn(3, 20, |random| drawn_fault(random, 400, 10));
    // without selectors and with them, redundant and with a test
    let (mut verdicts, mut tally) = ([[0; 2]; 2], Tally::default());
    for (bytes, record) in few.chain(more) {
        let circuit = Circuit::read(&bytes).expect("sound");
        let fault = Fault::read_all(&circuit, &record, 1).expect("sound")[0];
        let inputs: Vec<usize> = circuit.inputs().collect();
        let verdict = ullimaqsu::search(&bytes, &record, u64::MAX, &mut vec![0; inputs.len()], &mut vec![0; bytes.len() / 4]);
        let has_test = verdict.expect("sound").outcome == Outcome::Test;
        let detected = vectors(inputs.len()).any(|vector| circuit.entry(&vector, fault) == Entry::Fail);
        assert_eq!(has_test, detected, "{bytes:?} {record:?}");
        let list = List::of(&bytes, &record);
        for solver in SOLVERS {
            let model = solve(solver, &list.dimacs());
            assert_eq!(model.is_some(), has_test, "{} {bytes:?} {record:?}", solver[0]);
            let Some(model) = model else { continue };
            let truth = |variable: i32| model.contains(&variable);
            assert!(list.is_satisfied(truth), "{} {bytes:?} {record:?}", solver[0]);
            let vector = inputs.iter().map(|&line| Some(truth(2 * line as i32 + 1))).collect();
            let expected = assignment(&circuit, fault, &vector);
            let truths: Vec<bool> = (1..=list.variables as i32).map(truth).collect();
            assert_eq!(truths, expected, "{} {bytes:?} {record:?}", solver[0]);
            assert_eq!(circuit.entry(&vector, fault), Entry::Fail);
        }
        verdicts[usize::from(selectors(&bytes).next().is_some())][usize::from(has_test)] += 1;
        tally.count(0);
        tally.count_sorts(selects::all(&bytes, &record, &[]));
    }
    for (which, [redundant, tests]) in ["without selectors", "with selectors"].into_iter().zip(verdicts) {
        println!("clauses to three solvers, circuits {which}: {tests} with a test, {redundant} redundant");
        assert!(redundant > 30 && tests > 30, "too few circuits {which}: {tests} with a test, {redundant} redundant");
    }
    println!("clauses to three solvers: {}, {:.1} s", tally.with_sorts(&EVERY[..2]), began.elapsed().as_secs_f64());
}

//! `ullimaqsu faults`: every fault by name, and collapsing held to what simulation says.
#[path = "unfold/drawn.rs"]
#[allow(dead_code)] // the tests of unfold ask for more
mod clocked;
mod harness;

use cases::{circuits, drawn, texts, Directory, Random};
use clocked::Drawn;
use harness::named::Named;
use harness::{example, examples, printed, selectors, stopped, ullimaqsu};
use second::circuit::Gate;
use second::clocked::Clocked;
use second::{Circuit, Fault, Site, Value};
use std::collections::HashSet;
use std::fs;
use std::path::{Path, PathBuf};

fn faults(path: &Path, options: &[&str]) -> String {
    let words: Vec<&Path> = [Path::new("faults"), path].into_iter().chain(options.iter().map(Path::new)).collect();
    printed(&words)
}

/// Texts and records, as files with what the second program has of them.
fn circuits(directory: &Directory, count: usize) -> Vec<(PathBuf, Named)> {
    let text = |(number, text): (usize, Vec<u8>)| (directory.write(&format!("{number}.bench"), &text), Named::of_text(&text));
    let records = |(number, records): (usize, Vec<u8>)| (directory.write(&format!("{number}.rec"), &records), Named::of_records(&records));
    let texts = drawn(1, count, texts::small).enumerate().map(text);
    texts.chain(drawn(2, count, circuits::few_inputs).enumerate().map(records)).collect()
}

#[test]
fn all_faults() {
    let directory = Directory::new("faults");
    let known = examples().into_iter().map(|path| (path.clone(), Named::of_file(&path)));
    for (path, named) in circuits(&directory, 40).into_iter().chain(known) {
        assert_eq!(faults(&path, &[]), named.fault_lines(&named.faults(false)));
        assert_eq!(faults(&path, &["--pins"]), named.fault_lines(&named.faults(true)));
    }
}

/// A pin stuck at the first value is the line stuck at the second.
type Row = (bool, bool);

/// The textbook's table: the rows of a gate.
fn textbook(gate: Gate) -> Vec<Row> {
    match gate {
        Gate::Buffer(_) => vec![(false, false), (true, true)],
        Gate::Not(_) => vec![(false, true), (true, false)],
        Gate::And(..) => vec![(false, false)],
        Gate::Nand(..) => vec![(false, true)],
        Gate::Or(..) => vec![(true, true)],
        Gate::Nor(..) => vec![(true, false)],
        Gate::Input | Gate::Xor(..) | Gate::Xnor(..) | Gate::Selector(..) => vec![],
    }
}

/// The pins that read a line.
fn readers(circuit: &Circuit, line: usize) -> Vec<(usize, usize)> {
    let of = |reader: usize| (1..).zip(circuit.lines[reader].gate.sources()).map(move |(pin, source)| (reader, pin, source));
    (0..circuit.lines.len()).flat_map(of).filter(|(_, _, source)| *source == line).map(|(reader, pin, _)| (reader, pin)).collect()
}

/// All pairs of faults that are equivalent by such a table, or along a wire.
fn pairs(circuit: &Circuit, table: impl Fn(Gate) -> Vec<Row>, is_wire: impl Fn(&Circuit, usize) -> bool) -> Vec<(Fault, Fault)> {
    let mut pairs = vec![];
    for (line, of) in circuit.lines.iter().enumerate() {
        for pin in 1..=of.gate.sources().len() {
            let rows = table(of.gate).into_iter();
            pairs.extend(
                rows.map(|(at, to)| (Fault { line, site: Site::Pin(pin), stuck: at }, Fault { line, site: Site::Line, stuck: to })),
            );
        }
        if is_wire(circuit, line) {
            let (reader, pin) = readers(circuit, line)[0];
            let both = |stuck| (Fault { line, site: Site::Line, stuck }, Fault { line: reader, site: Site::Pin(pin), stuck });
            pairs.extend([false, true].map(both));
        }
    }
    pairs
}

fn wire(circuit: &Circuit, line: usize) -> bool {
    readers(circuit, line).len() == 1 && !circuit.lines[line].output
}

/// The faults of a list that are equivalent to none before them, by going from pair to pair.
fn firsts(list: &[Fault], pairs: &[(Fault, Fault)]) -> Vec<Fault> {
    let mut reached: Vec<Fault> = vec![];
    let mut firsts = vec![];
    for &fault in list {
        if reached.contains(&fault) {
            continue;
        }
        firsts.push(fault);
        let mut next = vec![fault];
        while let Some(at) = next.pop() {
            if !reached.contains(&at) {
                reached.push(at);
                next.extend(pairs.iter().filter(|(one, _)| *one == at).map(|(_, other)| *other));
                next.extend(pairs.iter().filter(|(_, other)| *other == at).map(|(one, _)| *one));
            }
        }
    }
    firsts
}

/// What every vector gives at the outputs.
fn behaviour(circuit: &Circuit, fault: Fault) -> Vec<Vec<Value>> {
    let inputs = circuit.inputs().count();
    let vector = |number: usize| (0..inputs).map(|k| Some(number >> k & 1 == 1)).collect::<Vec<Value>>();
    let outputs = |values: Vec<Value>| circuit.outputs().map(|line| values[line]).collect();
    (0..1 << inputs).map(|number| outputs(circuit.values(&vector(number), Some(fault)))).collect()
}

/// No vector tells the two of any pair apart.
fn none_differs(circuit: &Circuit, pairs: &[(Fault, Fault)]) -> bool {
    pairs.iter().all(|&(one, other)| behaviour(circuit, one) == behaviour(circuit, other))
}

/// Circuits in which every kind and every sort of line occurs.
fn small_circuits() -> Vec<Circuit> {
    drawn(3, 60, circuits::few_inputs)
        .map(|records| Named::of_records(&records).circuit)
        .filter(|circuit| circuit.inputs().count() < 6)
        .collect()
}

/// The table is right: what it calls equivalent no vector tells apart. And with any other row, or with wires that are outputs or that several
/// pins read, this would be seen.
#[test]
fn the_table() {
    let circuits = small_circuits();
    let holds = |table: &dyn Fn(Gate) -> Vec<Row>, wire: &dyn Fn(&Circuit, usize) -> bool| {
        circuits.iter().all(|circuit| none_differs(circuit, &pairs(circuit, table, wire)))
    };
    assert!(holds(&textbook, &wire));
    let kinds: [fn(usize) -> Gate; 9] = [
        Gate::Buffer,
        Gate::Not,
        |a| Gate::And(a, a),
        |a| Gate::Nand(a, a),
        |a| Gate::Or(a, a),
        |a| Gate::Nor(a, a),
        |a| Gate::Xor(a, a),
        |a| Gate::Xnor(a, a),
        |a| Gate::Selector(a, a, a),
    ];
    let same = |one: Gate, other: Gate| one.over(|_, _| 0) == other.over(|_, _| 0);
    for kind in kinds {
        for row in [(false, false), (false, true), (true, false), (true, true)] {
            if !textbook(kind(0)).contains(&row) {
                let wrong = |gate: Gate| if same(gate, kind(0)) { vec![row] } else { vec![] };
                assert!(!holds(&wrong, &wire), "{:?} with {row:?}", kind(0));
            }
        }
    }
    assert!(!holds(&|_| vec![], &|circuit, line| readers(circuit, line).len() == 1), "outputs are no wires");
    assert!(!holds(&|_| vec![], &|circuit, line| !readers(circuit, line).is_empty() && !circuit.lines[line].output), "stems are no wires");
}

/// The command keeps the first of each class, with pins and without.
#[test]
fn collapsing() {
    let directory = Directory::new("collapse");
    let mut left_out = 0;
    let known = [example("c17"), selectors("circuit")].map(|path| (path.clone(), Named::of_file(&path)));
    for (path, named) in circuits(&directory, 60).into_iter().chain(known) {
        let pairs = pairs(&named.circuit, textbook, wire);
        for (options, all) in [(&["--collapse"][..], named.faults(false)), (&["--collapse", "--pins"], named.faults(true))] {
            let firsts = firsts(&all, &pairs);
            left_out += all.len() - firsts.len();
            assert_eq!(faults(&path, options), named.fault_lines(&firsts));
        }
    }
    assert!(left_out > 100);
    // c17 has 22 classes, as every textbook says
    assert_eq!(faults(&example("c17"), &["--pins", "--collapse"]).lines().count(), 22);
}

/// Flip-flops have the faults of their lines, and what they take over is seen: a data line is no wire. What is then called equivalent no run over
/// several steps tells apart, and with data lines as wires this would be seen.
#[test]
fn faults_of_flip_flops() {
    let (directory, random) = (Directory::new("faults of flip-flops"), &mut Random::new(4));
    let (mut told_apart, mut left_out) = (0, 0);
    for case in drawn(6, 80, Drawn::new) {
        let (path, named, clocked) = (directory.write("clocked.bench", &case.text), &case.named, case.clocked());
        let seen = pairs(&Clocked { steps: 1, ..clocked.clone() }.unfolded(), textbook, wire);
        for (options, all) in [(&[][..], named.faults(false)), (&["--pins"], named.faults(true))] {
            assert_eq!(faults(&path, options), named.fault_lines(&all));
            let firsts = firsts(&all, &seen);
            assert_eq!(faults(&path, &[options, &["--collapse"]].concat()), named.fault_lines(&firsts));
            left_out += all.len() - firsts.len();
        }
        let vectors: Vec<Vec<Value>> = (0..16).map(|_| (0..clocked.inputs()).map(|_| Some(random.once_in(2))).collect()).collect();
        let shown = |fault| vectors.iter().map(|vector| clocked.compared(&clocked.run(vector, Some(fault)))).collect::<Vec<_>>();
        let none_differs = |pairs: &[(Fault, Fault)]| pairs.iter().all(|&(one, other)| shown(one) == shown(other));
        assert!(none_differs(&seen), "{}", String::from_utf8_lossy(&case.text));
        told_apart += usize::from(!none_differs(&pairs(&named.circuit, textbook, wire)));
    }
    assert!(told_apart > 5 && left_out > 100, "{told_apart} {left_out}");
}

/// A selector's line has eight faults, of which no two are equivalent. In the example every class is found: with one fault of each, no two
/// circuits compute the same.
#[test]
fn faults_of_selectors() {
    let path = selectors("circuit");
    let all = faults(&path, &["--pins"]);
    let of_the_last: Vec<&str> = all.lines().filter(|fault| fault.starts_with('8')).collect();
    assert_eq!(of_the_last, ["8/0", "8/1", "8.1/0", "8.1/1", "8.2/0", "8.2/1", "8.3/0", "8.3/1"]);
    let named = Named::of_file(&path);
    let mut behaviours = HashSet::new();
    let firsts: Vec<Fault> = named.faults(true).into_iter().filter(|&fault| behaviours.insert(behaviour(&named.circuit, fault))).collect();
    assert_eq!(faults(&path, &["--pins", "--collapse"]), named.fault_lines(&firsts));
    // lines 0 to 3 and 5 are wires to their pins, 4 is read by two selects, and 6 and 7 are wires to the last selector
    assert_eq!((firsts.len(), all.lines().count()), (22, 36));
}

/// The list goes to a file, and never over the circuit.
#[test]
fn into_a_file() {
    let directory = Directory::new("faults to a file");
    let circuit = directory.write("c17.bench", fs::read(example("c17")).expect("c17"));
    let out = directory.path("list");
    let words = |out: &Path| ullimaqsu(&[Path::new("faults"), &circuit, Path::new("-o"), out]);
    assert_eq!(words(&out), (Some(0), String::new(), String::new()));
    assert_eq!(directory.read("list"), faults(&circuit, &[]));
    assert_eq!(words(&circuit), stopped(&format!("{} is one of the files that are read", circuit.display())));
    assert_eq!(directory.read("c17.bench"), fs::read_to_string(example("c17")).expect("c17"));
    let missing = directory.path("missing/list");
    assert_eq!(words(&missing), stopped(&format!("the directory of {} is missing or can't be entered", missing.display())));
    assert_eq!(words(Path::new("")), stopped("the name of the file to be written is empty"));
    assert_eq!(directory.names(), ["c17.bench", "list"]);
}

/// As many as there can be.
#[test]
fn the_largest() {
    let directory = Directory::new("largest");
    let text = texts::largest(&mut Random::new(5), 2048, 64);
    let (path, named) = (directory.write("largest.bench", &text), Named::of_text(&text));
    assert_eq!(faults(&path, &["--pins"]), named.fault_lines(&named.faults(true)));
    let firsts = firsts(&named.faults(true), &pairs(&named.circuit, textbook, wire));
    assert_eq!(faults(&path, &["--pins", "--collapse"]), named.fault_lines(&firsts));
}

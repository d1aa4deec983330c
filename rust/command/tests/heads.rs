//! `ullimaqsu check --heads`: the head lines by name, held to what can be reached from the branches.
mod harness;

use cases::circuits::{self, record, selector, AND, INPUT, NOT};
use cases::{drawn, texts, Directory, Random};
use harness::heads::{bushy, Heads};
use harness::named::Named;
use harness::searched::counted;
use harness::{example, into_broken, into_full, printed, refused, root, selectors, stopped, ullimaqsu};
use second::circuit::Gate;
use std::path::{Path, PathBuf};

fn listed(path: &Path) -> String {
    printed(&[Path::new("check"), path, Path::new("--heads")])
}

/// A head line by its name, with the numbers of inputs and lines of its tree.
type Head<'a> = (&'a str, usize, usize);

/// What is printed where these are the head lines.
fn expected(named: &Named, heads: &[Head]) -> String {
    let counts = named.circuit.counts();
    let width = heads.iter().map(|(name, ..)| name.len()).max().unwrap_or(0).max(4);
    let rows: String = heads.iter().map(|(name, inputs, lines)| format!("{name:width$} {inputs:>6} {lines:>5}\n")).collect();
    let (found, inputs) = (counted(heads.len(), "head line"), counted(counts.inputs, "input"));
    let sizes = format!("lines {}, inputs {}, outputs {}", counts.lines, counts.inputs, counts.outputs);
    format!("{sizes}\n{:width$} inputs lines\n{rows}{found} for {inputs}\n", "head")
}

/// As the second program has the circuit, with what can be reached.
fn followed(named: &Named) -> String {
    let heads = Heads::of(&named.circuit);
    let row = |&head: &usize| {
        let tree = heads.tree(head);
        let inputs = tree.iter().filter(|&&line| named.circuit.lines[line].gate == Gate::Input).count();
        (named.names[head].as_str(), inputs, tree.len())
    };
    expected(named, &heads.lines.iter().map(row).collect::<Vec<_>>())
}

/// Every head line is an input.
fn inputs_alone(path: &Path) {
    let named = Named::of_file(path);
    let inputs: Vec<_> = named.inputs().into_iter().map(|name| (name, 1, 1)).collect();
    assert_eq!(listed(path), expected(&named, &inputs), "{}", path.display());
}

#[test]
fn by_hand() {
    ["c17", "decoder4", "multiplier4", "adder16"].iter().for_each(|name| inputs_alone(&example(name)));
    inputs_alone(&selectors("circuit"));
    let directory = Directory::new("heads");
    let narrow = directory.path("narrow.bench");
    printed(&[Path::new("narrow"), &root().join("examples/wide.bench"), Path::new("-o"), &narrow]);
    inputs_alone(&narrow);
    let trees = "lines 131, inputs 64, outputs 1\nhead inputs lines\nall      16    31\nany      16    31\nodd      32    63\n";
    assert_eq!(listed(&example("trees")), format!("{trees}3 head lines for 64 inputs\n"));
    let parity = "lines 32, inputs 16, outputs 2\nhead inputs lines\nx2        8    15\nx3        8    15\n2 head lines for 16 inputs\n";
    assert_eq!(listed(&example("parity16")), parity);
    let a = "lines 5, inputs 3, outputs 1\nhead inputs lines\n0 head lines for 3 inputs\n";
    assert_eq!(listed(&root().join("examples/a/circuit.rec")), a);

    let is = |what: &str, records: &[[u8; 8]], heads: &[Head]| {
        let path = directory.write("small.rec", records.concat());
        assert_eq!(listed(&path), expected(&Named::of_file(&path), heads), "{what}");
    };
    let (i, shown) = (record(INPUT, false, 0, 0), record(INPUT, true, 0, 0));
    is("an input alone", &[shown], &[]);
    is("both pins of a gate read a line", &[i, record(AND, true, 0, 0)], &[("0", 1, 1)]);
    is("being an output is no reading", &[shown, record(NOT, true, 0, 0)], &[]);
    is("a select and a source are two pins", &[i, i, selector(true, 0, 1, 0)], &[("0", 1, 1), ("1", 1, 1)]);
    let branching = [i, i, record(AND, true, 0, 1), record(NOT, true, 2, 0), record(AND, true, 2, 3)];
    is("the root of a tree, an output, branches", &branching, &[("2", 2, 3)]);
    let read_once = [i, i, i, record(AND, false, 0, 1), record(AND, false, 2, 2), record(AND, true, 3, 4)];
    is("one pin of a bound gate reads the root of a tree", &read_once, &[("2", 1, 1), ("3", 2, 3)]);
}

fn texts_and_records(directory: &Directory) -> impl Iterator<Item = (PathBuf, Named)> + '_ {
    let texts = drawn(1, 150, |random: &mut Random| bushy(random, 64)).chain(drawn(2, 150, texts::small));
    let texts = texts.map(|text| (directory.write("text", &text), Named::of_text(&text)));
    let records = drawn(3, 100, circuits::small).chain(drawn(4, 100, circuits::few_inputs));
    texts.chain(records.map(|records| (directory.write("records", &records), Named::of_records(&records))))
}

#[test]
fn random_circuits() {
    let directory = Directory::new("random heads");
    let (mut none, mut trees, mut large, mut several) = (0, 0, 0, 0);
    for (path, named) in texts_and_records(&directory) {
        assert_eq!(listed(&path), followed(&named));
        let heads = Heads::of(&named.circuit);
        let sizes: Vec<usize> = heads.lines.iter().map(|&head| heads.tree(head).len()).collect();
        none += usize::from(sizes.is_empty());
        trees += usize::from(sizes.iter().any(|&size| size > 1));
        large += usize::from(sizes.iter().any(|&size| size > 9));
        several += usize::from(sizes.iter().filter(|&&size| size > 1).count() > 2);
    }
    assert!([none, trees, large, several].iter().all(|&times| times > 20), "{none} {trees} {large} {several}");
}

#[test]
fn the_largest() {
    let directory = Directory::new("largest heads");
    let text = texts::largest(&mut Random::new(5), 2048, 64);
    assert_eq!(listed(&directory.write("largest.bench", &text)), followed(&Named::of_text(&text)));
    // one tree of 64 inputs, as deep as there are inputs, whose root a long chain reads with both pins
    let mut records = circuits::parity();
    (127..2048).for_each(|line| records.extend(record(AND, line == 2047, line - 1, line - 1)));
    let path = directory.write("chain.rec", &records);
    assert_eq!(listed(&path), expected(&Named::of_file(&path), &[("126", 64, 127)]));
}

/// Without the option nothing is listed; what is refused or can't be printed is told as ever.
#[test]
fn what_is_wrong() {
    let c17 = example("c17");
    assert_eq!(printed(&[Path::new("check"), &c17]), "lines 11, inputs 5, outputs 2\n");
    let listed = [Path::new("check"), Path::new("--heads"), &c17];
    assert_eq!(printed(&listed), printed(&[Path::new("check"), &c17, Path::new("--heads"), Path::new("--heads")]));
    let wants = stopped("check wants a circuit; see ullimaqsu check --help");
    assert_eq!(ullimaqsu(&["check", "--heads"]), wants);
    assert_eq!(ullimaqsu(&["check", "a", "--heads", "b"]), wants);
    let near = stopped("check has no option `--head`; the nearest name is `--heads`; see ullimaqsu check --help");
    assert_eq!(ullimaqsu(&["check", "a", "--head"]), near);
    assert_eq!(ullimaqsu(&["check", "no such circuit", "--heads"]), stopped("there is no file no such circuit"));
    let directory = Directory::new("wrong heads");
    let wrong = directory.write("wrong.rec", record(INPUT, false, 0, 0));
    let line = format!("{}: refusal 5: the circuit has no output", wrong.display());
    assert_eq!(ullimaqsu(&[Path::new("check"), &wrong, Path::new("--heads")]), refused(&line));
    assert_eq!(into_broken(&listed), (Some(141), String::new(), String::new()));
    assert_eq!(into_full(&listed), stopped("standard output could not be written: No space left on device"));
}

//! `ullimaqsu unfold` and `ullimaqsu dictionary --steps`: texts with flip-flops over several clock steps.
mod abc;
mod dictionary;
mod directory;
mod drawn;
mod files;
#[path = "../harness/mod.rs"]
mod harness;
mod places;
mod refused;
mod wrong;

use cases::drawn as draw;
use drawn::Drawn;
use harness::named::{kind, Named};
use harness::{printed, root, Directory};
use second::{Circuit, Clocked};
use std::fs;
use std::path::Path;

/// What is printed for a text over so many steps, with the list of lines, and the records that are written.
fn unfold(directory: &Directory, text: &[u8], steps: u64) -> (String, Vec<u8>) {
    let (file, out) = (directory.write("text.bench", text), directory.path("out"));
    let said = printed(&[Path::new("unfold"), &file, Path::new(&steps.to_string()), &out, Path::new("--lines")]);
    (said, fs::read(&out).expect("records"))
}

/// The words of what is printed, line by line: the numbers of the unfolded circuit, and a row for each of its lines.
fn rows(unfolded: &Circuit, one: &Named, steps: u64, states: usize) -> Vec<String> {
    let (lines, each) = (unfolded.lines.len(), one.names.len());
    let (inputs, outputs) = (unfolded.inputs().count(), unfolded.outputs().count());
    let name = |line: usize| format!("{}@{}", one.names[line % each], 1 + line / each);
    let row = |line: usize| {
        let sources = unfolded.lines[line].gate.sources().into_iter().map(name);
        let output = unfolded.lines[line].output.then(|| "output".to_string());
        let cells = [line.to_string(), name(line), kind(unfolded.lines[line].gate).to_string()].into_iter().chain(sources).chain(output);
        cells.collect::<Vec<_>>().join(" ")
    };
    let heads = [
        format!("lines {lines}, inputs {inputs}, outputs {outputs}"),
        format!("steps {steps}, lines a step {each}, state lines {states}"),
        "number line kind sources output".to_string(),
    ];
    heads.into_iter().chain((0..lines).map(row)).collect()
}

/// The words of each line, whatever stands between them.
fn words(text: &str) -> Vec<String> {
    text.lines().map(|line| line.split_whitespace().collect::<Vec<_>>().join(" ")).collect()
}

/// What is seen of an unfolding: the records, and the words of what is printed, line by line.
#[derive(Clone, Debug, PartialEq, Eq)]
struct Seen {
    records: Vec<u8>,
    words: Vec<String>,
}

impl Seen {
    fn by_the_command(directory: &Directory, drawn: &Drawn) -> Seen {
        let (said, records) = unfold(directory, &drawn.text, drawn.steps);
        Seen { records, words: words(&said) }
    }

    /// By the second program, of a clocked circuit whose lines have the text's names.
    fn of(clocked: &Clocked, named: &Named) -> Seen {
        let unfolded = clocked.unfolded();
        Seen { words: rows(&unfolded, named, clocked.steps as u64, clocked.states.len()), records: unfolded.write() }
    }

    fn right(drawn: &Drawn) -> Seen {
        Seen::of(&drawn.clocked(), &drawn.named)
    }
}

/// A counter of one bit, every byte of it.
#[test]
fn a_counter() {
    let directory = Directory::new("counter");
    let (said, records) = unfold(&directory, b"INPUT(up)\nOUTPUT(q)\nq = DFF(d)\nd = XOR(up, q)\n", 3);
    let right = "\
lines 9, inputs 4, outputs 4
steps 3, lines a step 3, state lines 1
number line kind  sources  output
0      up@1 INPUT
1      q@1  INPUT          output
2      d@1  XOR   up@1 q@1
3      up@2 INPUT
4      q@2  BUFF  d@1      output
5      d@2  XOR   up@2 q@2
6      up@3 INPUT
7      q@3  BUFF  d@2      output
8      d@3  XOR   up@3 q@3 output
";
    assert_eq!(said, right);
    let right = [
        [0, 0, 0, 0, 0, 0, 0, 0],
        [0, 1, 0, 0, 0, 0, 0, 0],
        [7, 0, 0, 0, 1, 0, 0, 0],
        [0, 0, 0, 0, 0, 0, 0, 0],
        [1, 1, 2, 0, 0, 0, 0, 0],
        [7, 0, 3, 0, 4, 0, 0, 0],
        [0, 0, 0, 0, 0, 0, 0, 0],
        [1, 1, 5, 0, 0, 0, 0, 0],
        [7, 1, 6, 0, 7, 0, 0, 0],
    ];
    assert_eq!(records, right.concat());
}

/// Records, numbers and lists are the second program's.
#[test]
fn drawn_texts() {
    let directory = Directory::new("drawn");
    let (mut flip_flops, mut none, mut steps) = (0, 0, [0; 8]);
    for drawn in draw(1, 250, Drawn::new) {
        assert_eq!(Seen::by_the_command(&directory, &drawn), Seen::right(&drawn), "{}", String::from_utf8_lossy(&drawn.text));
        flip_flops += drawn.flip_flops();
        none += usize::from(drawn.flip_flops() == 0);
        steps[drawn.steps as usize - 1] += 1;
    }
    assert!(flip_flops > 300 && none > 10 && steps.iter().all(|&times| times > 5), "{flip_flops} {none} {steps:?}");
    println!("unfold: 250 texts with {flip_flops} flip-flops, {none} of them without, by steps {steps:?}");
}

/// Blanks, ends of lines, comments and names in which the word stands say nothing else.
#[test]
fn the_same_in_other_words() {
    let directory = Directory::new("words");
    let plain = "INPUT(a)\nINPUT(b)\nOUTPUT(q)\nq=DFF(y)\ny=AND(a,q)\nr=DFF(y)\nOUTPUT(b)\n";
    let right = unfold(&directory, plain.as_bytes(), 2);
    let same = |text: &str| assert_eq!(unfold(&directory, text.as_bytes(), 2), right, "{text}");
    same(&plain.replace('\n', "\r\n"));
    same(&plain.replace("q=DFF(y)", " \tq\t= \rDFF\t ( y\t) \t\r"));
    same(&plain.replace("q=DFF(y)", "q=DFF(y)#r=DFF(a)\n# s = DFF(b)\n#DFF("));
    same(&plain.replace("r=DFF(y)\n", "# DFF\nr=DFF(y) # DFF(q)\n\n"));
    same(plain.trim_end());

    // a name may be any word
    let renamed = |from: &str, to: &str| (right.0.replace(&format!("{from}@"), &format!("{to}@")), right.1.clone());
    for (text, from, to) in [
        ("INPUT(a)\nINPUT(b)\nOUTPUT(q)\nq=DFF(DFF)\nDFF=AND(a,q)\nr=DFF(DFF)\nOUTPUT(b)\n", "y", "DFF"),
        ("INPUT(a)\nINPUT(b)\nOUTPUT(DFF)\nDFF=DFF(y)\ny=AND(a,DFF)\nr=DFF(y)\nOUTPUT(b)\n", "q", "DFF"),
        ("INPUT(a)\nINPUT(b)\nOUTPUT(INPUT)\nINPUT=DFF(y)\ny=AND(a,INPUT)\nr=DFF(y)\nOUTPUT(b)\n", "q", "INPUT"),
        ("INPUT(a)\nINPUT(b)\nOUTPUT(q)\nq=DFF(DFFX)\nDFFX=AND(a,q)\nr=DFF(DFFX)\nOUTPUT(b)\n", "y", "DFFX"),
        ("INPUT(a)\nINPUT(DFF)\nOUTPUT(q)\nq=DFF(y)\ny=AND(a,q)\nr=DFF(y)\nOUTPUT(DFF)\n", "b", "DFF"),
        ("INPUT(a)\nINPUT(b)\nOUTPUT(q)\nq=DFF(y)\ny=AND(a,q)\nabcdefghijklmnop=DFF(y)\nOUTPUT(b)\n", "r", "abcdefghijklmnop"),
    ] {
        let (said, records) = unfold(&directory, text.as_bytes(), 2);
        let right = renamed(from, to);
        assert_eq!((words(&said), records), (words(&right.0), right.1), "{text}");
    }
}

/// A flip-flop of itself, two of one data line, one of an input, one that is an output, one of another, and none.
#[test]
fn flip_flops_of_every_sort() {
    let directory = Directory::new("sorts");
    let listed = |text: &str| unfold(&directory, text.as_bytes(), 2).0;
    let rows = |text: &str| words(&listed(text)).split_off(3);
    assert_eq!(rows("OUTPUT(q)\nq = DFF(q)"), ["0 q@1 INPUT output", "1 q@2 BUFF q@1 output"]);
    assert_eq!(
        rows("INPUT(a)\nOUTPUT(n)\np = DFF(n)\nq = DFF(n)\nn = NOT(a)"),
        ["0 a@1 INPUT", "1 p@1 INPUT", "2 q@1 INPUT", "3 n@1 NOT a@1 output"]
            .into_iter()
            .chain(["4 a@2 INPUT", "5 p@2 BUFF n@1", "6 q@2 BUFF n@1", "7 n@2 NOT a@2 output"])
            .collect::<Vec<_>>()
    );
    assert_eq!(
        rows("q = DFF(p)\np = DFF(a)\nINPUT(a)\nOUTPUT(q)"),
        ["0 q@1 INPUT output", "1 p@1 INPUT", "2 a@1 INPUT", "3 q@2 BUFF p@1 output", "4 p@2 BUFF a@1 output", "5 a@2 INPUT output"]
    );
    assert_eq!(rows("INPUT(a)\nOUTPUT(a)"), ["0 a@1 INPUT output", "1 a@2 INPUT output"]);
    assert_eq!(words(&listed("INPUT(a)\nOUTPUT(a)"))[1], "steps 2, lines a step 1, state lines 0");
}

/// Eight steps, 64 inputs, 2,048 lines and 32,768 bytes, and no more.
#[test]
fn sizes() {
    let directory = Directory::new("sizes");
    let numbers = |text: &[u8], steps: u64| unfold(&directory, text, steps).0.lines().take(2).collect::<Vec<_>>().join("; ");
    let inputs: String = (0..8).map(|number| format!("INPUT(i{number})\n")).collect();
    assert_eq!(
        numbers(format!("{inputs}OUTPUT(i0)").as_bytes(), 8),
        "lines 64, inputs 64, outputs 8; steps 8, lines a step 8, state lines 0"
    );
    let flip_flops: String = (0..64).map(|number| format!("f{number} = DFF(f{})\n", (number + 1) % 64)).collect();
    let many = format!("{flip_flops}OUTPUT(f0)");
    assert_eq!(numbers(many.as_bytes(), 8), "lines 512, inputs 64, outputs 71; steps 8, lines a step 64, state lines 64");
    let gates: String = (1..255).map(|number| format!("{number} = NOT({})\n", number - 1)).collect();
    let long = format!("INPUT(a)\n0 = DFF(254)\nOUTPUT(7)\n{gates}");
    assert_eq!(numbers(long.as_bytes(), 8), "lines 2048, inputs 9, outputs 9; steps 8, lines a step 256, state lines 1");
    // blanks inside a flip-flop count as they stand
    let text = |blanks: usize| [b"OUTPUT(q)\nq = DFF(".to_vec(), vec![b' '; blanks], b"q)".to_vec()].concat();
    assert_eq!(numbers(&text(32_768 - text(0).len()), 2), "lines 2, inputs 1, outputs 2; steps 2, lines a step 1, state lines 1");
}

/// The example under every number of steps: four inputs a step, three flip-flops, ten gates.
#[test]
fn s27() {
    let directory = Directory::new("s27");
    let text = fs::read(root().join("examples/s27/s27.bench")).expect("an example");
    for steps in 1..=8 {
        let right = format!(
            "lines {}, inputs {}, outputs {}\nsteps {steps}, lines a step 17, state lines 3\n",
            17 * steps,
            3 + 4 * steps,
            3 + steps
        );
        assert!(unfold(&directory, &text, steps).0.starts_with(&right), "{right}");
    }
}

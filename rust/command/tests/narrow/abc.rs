//! Berkeley ABC proves that a text and its narrow one are equivalent. Where ABC is missing this says so and compares nothing; `.ci/abc` installs it.
use crate::equations::Equations;
use crate::harness::{root, Directory};
use crate::narrowed;
use crate::wide::{self, MANY};
use cases::texts::dense;
use cases::{drawn, Random};
use std::fs;
use std::path::Path;
use std::process::Command;

const ABC: &str = "berkeley-abc";

/// Where each kind of so many sources is 1, or else where it is 0: a row for each cube, and the value.
fn cover(kind: &str, sources: usize) -> String {
    let parity = |odd: u32| {
        (0..1u32 << sources).filter(move |vector| vector.count_ones() % 2 == odd).map(|vector| format!("{vector:0sources$b} 1\n")).collect()
    };
    let row = |sign: &str, value: u8| format!("{} {value}\n", sign.repeat(sources));
    match kind {
        "BUFF" | "AND" => row("1", 1),
        "NOT" | "NAND" => row("1", 0),
        "OR" => row("0", 0),
        "NOR" => row("0", 1),
        "XOR" => parity(1),
        _ => parity(0),
    }
}

/// A text as BLIF, which has gates of any number of sources by their covers.
fn blif(text: &[u8]) -> String {
    let Equations { inputs, outputs, gates } = Equations::read(text);
    let gates: String = gates
        .iter()
        .map(|gate| format!(".names {} {}\n{}", gate.sources.join(" "), gate.name, cover(&gate.kind, gate.sources.len())))
        .collect();
    format!(".model m\n.inputs {}\n.outputs {}\n{gates}.end\n", inputs.join(" "), outputs.join(" "))
}

/// What ABC says of two files.
fn verdict(one: &Path, other: &Path) -> String {
    let run = Command::new(ABC).args(["-q", &format!("cec {} {}", one.display(), other.display())]).output().expect("ABC runs");
    String::from_utf8_lossy(&run.stdout).into_owned()
}

/// The narrow text with the first gate that was made for each gate inverted.
fn spoilt(narrow: &str) -> String {
    let kinds = [("= AND", "= NAND"), ("= OR", "= NOR"), ("= XOR", "= XNOR")];
    let invert = |line: &str| kinds.iter().fold(line.to_string(), |line, (from, to)| line.replace(from, to));
    narrow.lines().map(|line| if line.contains("_1 = ") { invert(line) } else { line.to_string() } + "\n").collect()
}

#[test]
fn narrow_texts_are_equivalent() {
    if Command::new(ABC).arg("-h").output().is_err() {
        println!("ABSENT: {ABC} is not installed, and narrow texts were NOT proved equivalent to the wide ones");
        return;
    }
    let directory = Directory::new("abc");
    let example = fs::read(root().join("examples/wide.bench")).expect("an example");
    // ABC reads wide gates itself, but for XOR and XNOR
    let read = drawn(1, 20, |random: &mut Random| dense(&wide::plain(random, &MANY[..4], 20))).chain([example]).map(|text| (text, true));
    let covered = drawn(2, 20, |random: &mut Random| dense(&wide::plain(random, &MANY, 8))).map(|text| (text, false));
    let (mut compared, mut refused) = (0, 0);
    for (text, itself) in read.chain(covered) {
        let original =
            if itself { directory.write("original.bench", &text) } else { directory.write("original.blif", blif(&text).as_bytes()) };
        let narrow = String::from_utf8(narrowed(&directory, &text)).expect("text");
        let said = verdict(&original, &directory.write("narrow.bench", narrow.as_bytes()));
        assert!(said.contains("Networks are equivalent"), "{said}\n{}", String::from_utf8_lossy(&text));
        compared += 1;
        // a wrong one is told apart, unless no output shows it
        assert_ne!(spoilt(&narrow), narrow);
        if verdict(&original, &directory.write("spoilt.bench", spoilt(&narrow).as_bytes())).contains("Networks are NOT EQUIVALENT") {
            refused += 1;
        }
    }
    assert!(2 * refused > compared, "{refused} of {compared}");
    println!("{ABC}: {compared} narrow texts equivalent to the wide ones, and of as many wrong ones {refused} told apart");
}

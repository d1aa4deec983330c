//! Berkeley ABC's reading of the bench notation beside the library's: the records that the library makes of a text, written as BLIF with the
//! names that it gives to the lines, are equivalent to what ABC reads in the text itself. Where ABC is missing, this says so and compares
//! nothing; `.ci/abc` installs it.
#[path = "harness/named.rs"]
mod named;

use cases::circuits::{without_selectors, INPUT};
use cases::directory::{root, Directory};
use cases::texts::{chain, dense, of_records};
use cases::{blif, drawn, Random};
use named::name_at;
use std::fs;
use std::process::Command;
use ullimaqsu::{LARGEST_CIRCUIT, MOST_LINES};

const ABC: &str = "berkeley-abc";

/// The records as BLIF, with the text's names.
fn model(circuit: &[u8], names: &[&str]) -> String {
    let records = || circuit.chunks_exact(8).zip(names);
    let those =
        |some: fn(&[u8]) -> bool| records().filter(|(record, _)| some(record)).map(|(_, name)| format!(" {name}")).collect::<String>();
    let mut text = format!(".model m\n.inputs{}\n.outputs{}\n", those(|record| record[0] == INPUT), those(|record| record[1] == 1));
    for (record, name) in records().filter(|(record, _)| record[0] != INPUT) {
        text += &blif::gate(record, name, |source| names[source].to_string());
    }
    text + ".end\n"
}

/// What ABC says of a text and of the library's records for it, with the kind of one gate changed if that is wanted.
fn verdict(directory: &Directory, text: &[u8], spoil: bool) -> String {
    let mut circuit = vec![0; LARGEST_CIRCUIT];
    let records = ullimaqsu::bench(text, &mut circuit).expect("sound");
    circuit.truncate(8 * records as usize);
    let mut places = vec![0; MOST_LINES];
    assert_eq!(ullimaqsu::bench_names(text, &mut places), Ok(records));
    let names: Vec<&str> = places[..records as usize].iter().map(|&place| name_at(text, place)).collect();
    if spoil {
        let last = circuit.chunks_exact_mut(8).rfind(|record| record[1] == 1 && record[0] != INPUT).expect("a gate");
        last[0] = if last[0] % 2 == 1 { last[0] + 1 } else { last[0] - 1 }; // the same gate negated
    }
    let (one, other) = (directory.write("text.bench", text), directory.write("records.blif", model(&circuit, &names).as_bytes()));
    let run = Command::new(ABC).args(["-q", &format!("cec {} {}", one.display(), other.display())]).output().expect("ABC runs");
    String::from_utf8_lossy(&run.stdout).into_owned()
}

/// A circuit of any kinds that have a name in the notation, with plain names, its gates as they stand or backwards.
fn plain(random: &mut Random) -> Vec<u8> {
    let (lines, inputs) = (2 + random.below(60), 1 + random.below(8));
    let mut all = of_records(&without_selectors(random, lines.max(inputs + 1), inputs), 'n');
    if random.once_in(2) {
        all.reverse();
    }
    dense(&all)
}

#[test]
fn readings_are_equivalent() {
    if Command::new(ABC).arg("-h").output().is_err() {
        println!("ABSENT: {ABC} is not installed, and its reading of the examples was NOT compared with the library's");
        return;
    }
    let directory = Directory::new("abc");
    let examples = ["c17", "adder16", "multiplier4", "parity16", "decoder4", "trees"];
    let examples = examples.map(|name| fs::read(root().join("examples/bench").join(name).with_extension("bench")).expect("an example"));
    let mut compared = 0;
    for text in examples.iter().cloned().chain(drawn(1, 30, plain)).chain([chain(300, true)]) {
        let said = verdict(&directory, &text, false);
        assert!(said.contains("Networks are equivalent"), "{said}\n{}", String::from_utf8_lossy(&text));
        compared += 1;
    }
    // and it tells another circuit apart
    for text in &examples {
        assert!(verdict(&directory, text, true).contains("Networks are NOT EQUIVALENT"));
    }
    println!("{ABC}: {compared} texts, read by both to equivalent circuits");
}

//! The circuits under `examples/bench`: the library reads them, and simulated they add, multiply, count, decode and choose.
#[path = "harness/simulated.rs"]
mod simulated;

use cases::{drawn, Random};
use second::bench::{placed, Text};
use simulated::simulated;
use std::collections::HashMap;
use std::path::PathBuf;
use std::process::Command;
use std::{env, fs, process};
use ullimaqsu::LARGEST_CIRCUIT;

fn directory() -> PathBuf {
    PathBuf::from(env!("CARGO_MANIFEST_DIR")).join("../examples/bench")
}

fn text_of(name: &str) -> Vec<u8> {
    fs::read(directory().join(name).with_extension("bench")).expect("an example")
}

/// An example, its records as the library writes them.
struct Example {
    circuit: Vec<u8>,
    inputs: Vec<String>,
    line_of: HashMap<String, usize>,
}

impl Example {
    fn read(name: &str) -> Example {
        let text = text_of(name);
        let mut circuit = vec![0; LARGEST_CIRCUIT];
        let records = ullimaqsu::bench(&text, &mut circuit).expect(name);
        circuit.truncate(8 * records as usize);
        let placed = placed(&text).expect(name);
        assert_eq!(circuit, placed.circuit.write(), "{name}");
        let word = |name: &[u8]| String::from_utf8(name.to_vec()).expect("letters");
        let inputs = Text::read(&text).expect(name).inputs.iter().map(|input| word(input.name)).collect();
        Example { circuit, inputs, line_of: placed.line_of.iter().map(|(name, &line)| (word(name), line)).collect() }
    }

    /// The values of all lines, where bit k of the number that stands beside a letter goes to the input of that letter and k.
    fn run(&self, numbers: &[(&str, u64)]) -> Run<'_> {
        let bit = |name: &String| {
            let (letter, bit) = name.split_at(1);
            let (_, number) = numbers.iter().find(|number| number.0 == letter).expect("a number for each letter");
            (number >> bit.parse::<u32>().expect("a bit") & 1) as u8
        };
        let pattern: Vec<u8> = self.inputs.iter().map(bit).collect();
        Run { example: self, values: simulated(&self.circuit, &pattern) }
    }
}

struct Run<'a> {
    example: &'a Example,
    values: Vec<u8>,
}

impl Run<'_> {
    fn value(&self, name: &str) -> u64 {
        self.values[self.example.line_of[name]].into()
    }

    /// The number whose bits are the outputs of this letter.
    fn number(&self, letter: &str, bits: usize) -> u64 {
        (0..bits).map(|bit| self.value(&format!("{letter}{bit}")) << bit).sum()
    }
}

#[test]
fn c17_is_that_of_the_dictionary() {
    let records = fs::read(directory().join("../c17/circuit.rec")).expect("c17");
    assert_eq!(Example::read("c17").circuit, records);
}

#[test]
fn the_adder_adds() {
    let adder = Example::read("adder16");
    let corners = [(0, 0, 0), (65_535, 65_535, 1), (65_535, 0, 1), (21_845, 43_690, 0)];
    let drawn = drawn(1, 300, |random: &mut Random| (random.word() >> 48, random.word() >> 48, random.word() >> 63));
    for (a, b, c) in drawn.chain(corners) {
        let run = adder.run(&[("a", a), ("b", b), ("c", c)]);
        assert_eq!(run.number("s", 16) + (run.value("c16") << 16), a + b + c);
    }
}

#[test]
fn the_multiplier_multiplies() {
    let multiplier = Example::read("multiplier4");
    for (a, b) in (0..256).map(|both| (both % 16, both / 16)) {
        assert_eq!(multiplier.run(&[("a", a), ("b", b)]).number("m", 8), a * b);
    }
}

#[test]
fn the_parity_tree_counts() {
    let parity = Example::read("parity16");
    for x in drawn(2, 300, |random: &mut Random| random.word() >> 48).chain([0, 1, 32_768, 65_535]) {
        let run = parity.run(&[("x", x << 16)]);
        let odd = u64::from(x.count_ones() % 2);
        assert_eq!((run.value("odd"), run.value("even")), (odd, 1 - odd));
    }
}

#[test]
fn the_decoder_decodes() {
    let decoder = Example::read("decoder4");
    for s in 0..16 {
        assert_eq!(decoder.run(&[("s", s)]).number("y", 16), 1 << s);
    }
}

#[test]
fn the_trees_choose() {
    let trees = Example::read("trees");
    let drawn = drawn(3, 300, |random: &mut Random| (random.word() >> 48, random.word() >> 48, random.word() >> 32));
    // words that are drawn are hardly ever all 1 or all 0
    let ends = drawn.enumerate().map(|(k, (a, b, c))| (if k % 2 == 0 { a } else { 65_535 }, if k % 3 == 0 { 0 } else { b }, c));
    for (a, b, c) in ends {
        let run = trees.run(&[("a", a << 16), ("b", b << 16), ("c", c << 32)]);
        let (all, any, odd) = (a == 65_535, b != 0, c.count_ones() % 2 == 1);
        let values = [all, any, odd, if all { any } else { odd }].map(u64::from);
        assert_eq!(["all", "any", "odd", "y"].map(|name| run.value(name)), values);
    }
}

/// The files are what the script writes, and the table of their sizes is right.
#[test]
fn generated_files_and_their_table() {
    let room = env::temp_dir().join(format!("ullimaqsu-{}-generate", process::id()));
    fs::create_dir_all(&room).expect("a directory");
    let status = Command::new("sh").arg(directory().join("generate")).arg(&room).status().expect("sh runs");
    assert!(status.success());
    for name in ["adder16", "multiplier4", "parity16", "decoder4", "trees"] {
        assert_eq!(fs::read(room.join(name).with_extension("bench")).expect("written"), text_of(name), "{name}");
    }
    fs::remove_dir_all(&room).expect("removed");
    let table = fs::read_to_string(directory().join("README.md")).expect("a table");
    for name in ["c17", "adder16", "multiplier4", "parity16", "decoder4", "trees"] {
        let row = table.lines().find(|row| row.starts_with(&format!("| `{name}.bench` |"))).expect("a row");
        let lines = row.trim_end_matches([' ', '|']).rsplit(' ').next().expect("a number");
        assert_eq!(lines, (Example::read(name).circuit.len() / 8).to_string(), "{name}");
    }
}

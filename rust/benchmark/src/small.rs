//! Calls of the size of example A and of c17: here it shows what a call costs whatever it is given.
use crate::baseline::gates::Branches;
use crate::parts;
use crate::timing::Row;
use cases::{faults, Files};
use std::fs;

/// Example A in the bench notation.
const A: &[u8] = b"INPUT(a)\nINPUT(b)\nINPUT(c)\nOUTPUT(y)\nx = AND(a, b)\ny = OR(x, c)\n";

fn example(name: &str) -> Vec<u8> {
    fs::read(format!("{}/../../examples/{name}", env!("CARGO_MANIFEST_DIR"))).expect("an example")
}

fn files(name: &str) -> Files {
    let [circuit, faults, patterns] = ["circuit", "faults", "patterns"].map(|file| example(&format!("{name}/{file}.rec")));
    Files { circuit, faults, patterns }
}

/// A part on an example, given its name, its files and its text.
type Part = fn(&str, &Files, &[u8]) -> Row;

pub fn rows() -> impl Iterator<Item = Row> {
    let examples = [("example A", files("a"), A.to_vec()), ("c17", files("c17"), example("bench/c17.bench"))];
    let parts: [Part; 12] = [
        |name, files, _| parts::check(&format!("check: {name}"), files),
        |name, files, _| parts::dictionary::<Branches>(&format!("dictionary: {name}"), files),
        |name, files, _| parts::compact(&format!("compactor: {name}"), files.fault_count(), &parts::table(files)),
        |name, files, _| {
            let (faults, table) = (files.fault_count(), parts::table(files));
            parts::audit(&format!("audit: {name}"), faults, &table, &parts::compacted(faults, &table))
        },
        |name, files, _| parts::report(&format!("suspects_report: {name}"), files.fault_count(), &parts::table(files)),
        |name, files, _| parts::search::<Branches>(&format!("search: {name}"), files, u64::MAX),
        |name, files, _| parts::search_heads::<Branches>(&format!("search_heads: {name}"), files, u64::MAX),
        |name, files, _| parts::search_all::<Branches>(&format!("search_all: {name}"), files, u64::MAX),
        |name, files, _| parts::clauses(&format!("clauses: {name}"), files),
        |name, files, _| parts::control(&format!("control: {name}"), &files.circuit),
        |name, _, text| parts::bench(&format!("bench: {name}"), text),
        |name, _, text| parts::bench_names(&format!("bench_names: {name}"), text),
    ];
    parts.into_iter().flat_map(move |part| examples.each_ref().map(|(name, files, text)| part(name, files, text)))
}

/// The circuit of a text, and all its faults.
fn written(name: &str) -> Files {
    let mut circuit = vec![0; ullimaqsu::LARGEST_CIRCUIT];
    let records = ullimaqsu::bench(&example(&format!("bench/{name}.bench")), &mut circuit).expect("an example");
    circuit.truncate(8 * records as usize);
    let faults = faults::every(&circuit).concat();
    Files { circuit, faults, patterns: vec![] }
}

/// The examples in the bench notation, with all their faults one after the other. Of these parity16 and trees alone have trees.
pub fn heads() -> impl Iterator<Item = Row> {
    let names = ["c17", "decoder4", "multiplier4", "adder16", "parity16", "trees"];
    names.into_iter().map(|name| parts::search_heads_singly::<Branches>(name, &written(name), 100))
}

/// The same where every input is a head line, so that both searches look at the same nodes: what finding the head lines costs.
pub fn heads_beside_search() -> impl Iterator<Item = Row> {
    let names = ["c17", "decoder4", "multiplier4", "adder16"];
    names.into_iter().map(|name| parts::search_heads_singly_beside_search(name, &written(name), 100))
}

/// Dictionaries that carry 64 patterns at once, and here have fewer.
pub fn lanes() -> impl Iterator<Item = Row<6>> {
    [("example A", "a"), ("c17", "c17")].into_iter().map(|(name, directory)| parts::dictionary_lanes(name, &files(directory)))
}

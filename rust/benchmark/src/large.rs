//! Inputs of the largest sizes.
use crate::baseline::gates::{Branches, Table};
use crate::parts;
use crate::timing::Row;
use cases::circuits::{self, record, AND, INPUT, NOT, XOR};
use cases::control::chain;
use cases::{faults, texts, trees, Files, Random};

/// Random lines without selectors, faults on lines, and patterns.
fn drawn(lines: usize, inputs: usize, fault_count: usize, pattern_count: usize) -> Files {
    of(circuits::without_selectors, lines, inputs, fault_count, pattern_count)
}

/// What draws a circuit of so many lines and inputs.
type Draw = fn(&mut Random, usize, usize) -> Vec<u8>;

/// The same of lines that are drawn so.
fn of(draw: Draw, lines: usize, inputs: usize, fault_count: usize, pattern_count: usize) -> Files {
    let random = &mut Random::new(2);
    let circuit = draw(random, lines, inputs);
    let faults = (0..fault_count).flat_map(|_| faults::record(random.below(lines), 0, random.below(2) == 1)).collect();
    let patterns = (0..pattern_count * inputs).map(|_| random.below(3) as u8).collect();
    Files { circuit, faults, patterns }
}

/// A dictionary of the largest size.
fn files() -> Files {
    drawn(2048, 64, 256, 256)
}

/// The entries that a dictionary has most: few fail.
fn table() -> Vec<u8> {
    let random = &mut Random::new(3);
    (0..65536).map(|_| random.pick(&[0, 0, 0, 0, 0, 0, 1, 2])).collect()
}

/// Each pattern but the last is kept for nothing but a pair of its own with the last fault: so for each of them all pairs are gone through.
fn last_pairs() -> Vec<u8> {
    (0..65535).map(|place| (place / 256 != place % 256) as u8).chain([1]).collect()
}

fn smaller_table() -> Vec<u8> {
    let random = &mut Random::new(4);
    (0..16384).map(|_| random.pick(&[0, 0, 0, 1, 2])).collect()
}

/// 20 inputs and 480 gates, and a fault that no vector detects: the search looks at many nodes. Every input branches, so that there are no trees.
fn redundant() -> Files {
    above(record(INPUT, false, 0, 0).repeat(20), &(0..20).collect::<Vec<_>>())
}

/// The same over 20 trees of three inputs each.
fn redundant_over_trees() -> Files {
    let random = &mut Random::new(7);
    let mut trees = record(INPUT, false, 0, 0).repeat(60);
    for tree in 0..20 {
        let [one, other] = [3, 3].map(|kind| kind + random.below(6) as u8);
        trees.extend(record(one, false, 3 * tree, 3 * tree + 1));
        trees.extend(record(other, false, 60 + 2 * tree, 3 * tree + 2));
    }
    above(trees, &(0..20).map(|tree| 61 + 2 * tree).collect::<Vec<_>>())
}

/// 478 gates, each of which reads one of 20 lines and one just below itself or of these 20 again, and above them an output that is always 0, stuck
/// there.
fn above(mut circuit: Vec<u8>, lines: &[usize]) -> Files {
    let random = &mut Random::new(5);
    let from = circuit.len() / 8;
    for line in from..from + 478 {
        let kind = 3 + random.below(6) as u8;
        let (first, below) = (lines[random.below(20)], line - 1 - random.below(19));
        circuit.extend(record(kind, false, first, if below < from { lines[below % 20] } else { below }));
    }
    let last = circuit.len() / 8 - 1;
    circuit.extend(record(NOT, false, last, 0));
    circuit.extend(record(AND, true, last, last + 1));
    Files { circuit, faults: faults::record(last + 2, 0, false).to_vec(), patterns: vec![] }
}

/// Two head lines over 64 inputs, and a fault that no vector detects.
fn wide_trees() -> Files {
    let circuit = trees::two_trees(XOR, 5);
    let last = circuit.len() / 8 - 1;
    Files { circuit, faults: faults::record(last, 0, false).to_vec(), patterns: vec![] }
}

fn chain_of_xors() -> Files {
    let mut circuit = record(INPUT, false, 0, 0).repeat(64);
    (64..2048).for_each(|line| circuit.extend(record(XOR, line == 2047, line - 1, line - 64)));
    Files { circuit, faults: faults::record(1000, 0, true).to_vec(), patterns: vec![] }
}

pub fn rows() -> impl Iterator<Item = Row> {
    let rows: [fn() -> Row; 29] = [
        || parts::check("check: 2,048 lines", &files()),
        || parts::dictionary::<Branches>("dictionary: 2,048 lines, 256 faults, 256 patterns", &files()),
        || parts::dictionary::<Table>("the same beside Rust that looks gates up too", &files()),
        || parts::compact("compactor: 256 faults, 256 patterns", 256, &table()),
        || parts::compact_naively("compactor beside its definition run naively, 128", 128, &smaller_table()),
        || parts::audit("audit: 256 faults, 256 patterns, a sound list", 256, &table(), &parts::compacted(256, &table())),
        || parts::audit_beside_compactor("the same beside the proved compactor, not Rust", 256, &table()),
        || parts::audit("audit: 255 kept, each for its last pair", 256, &last_pairs(), &parts::compacted(256, &last_pairs())),
        || parts::audit_beside_compactor("the same beside the proved compactor, not Rust", 256, &last_pairs()),
        || parts::report("suspects_report: 256 faults, 256 patterns", 256, &table()),
        || parts::search::<Branches>("search: 500 lines, 20 inputs, 100,000 nodes at most", &redundant(), 100_000),
        || parts::search::<Table>("the same beside Rust that looks gates up too", &redundant(), 100_000),
        || parts::search_heads::<Branches>("search_heads: the same over 20 trees, 60 inputs", &redundant_over_trees(), 100_000),
        || parts::search_heads::<Table>("the same beside Rust that looks gates up too", &redundant_over_trees(), 100_000),
        || parts::search_heads::<Branches>("search_heads: the search's 500 lines, no trees", &redundant(), 100_000),
        || parts::search_heads_beside_search("the same beside the proved search, not Rust", &redundant(), 100_000),
        || parts::search_heads::<Branches>("search_heads: two trees of 32 inputs, 7 nodes", &wide_trees(), u64::MAX),
        || parts::search_all::<Branches>("search_all: 2,048 lines, 256 faults, 100 nodes each", &files(), 100),
        || parts::search_all::<Table>("the same beside Rust that looks gates up too", &files(), 100),
        || parts::search_all_singly("the same beside 256 proved searches, not Rust", &files(), 100),
        || parts::clauses("clauses: 2,048 lines of XOR", &chain_of_xors()),
        || parts::control("control: 2,048 lines", &files().circuit),
        || parts::control("control: 2,048 lines, with selectors", &of(circuits::circuit, 2048, 64, 0, 0).circuit),
        || parts::control("control: a chain of 2,048 lines of AND", &chain(AND, 2048)),
        // as many bytes, lines and statements as a text may have and be read, in any order
        || parts::bench("bench: 32,768 bytes, 2,048 lines", &texts::largest(&mut Random::new(6), 2048, 64)),
        // every gate stands before its source, so that the last one is placed first
        || parts::bench("bench: a chain of 2,048 lines, backwards", &texts::chain(2048, true)),
        // every gate in the first half reads one in the second, so that the cursor goes back and forth
        || parts::bench("bench: 1,023 pairs of gates, half a text apart", &texts::crossed(1023)),
        || parts::bench_names("bench_names: 32,768 bytes, 2,048 lines", &texts::largest(&mut Random::new(6), 2048, 64)),
        || parts::bench_names("bench_names: a chain of 2,048 lines, backwards", &texts::chain(2048, true)),
    ];
    rows.into_iter().map(|row| row())
}

/// Dictionaries that carry 64 patterns at once: the largest, without selectors and with them, and one of middle size.
pub fn lanes() -> impl Iterator<Item = Row<6>> {
    let rows: [fn() -> Row<6>; 3] = [
        || parts::dictionary_lanes("2,048 lines, 256 faults, 256 patterns", &files()),
        || parts::dictionary_lanes("as large, with selectors", &of(circuits::circuit, 2048, 64, 256, 256)),
        || parts::dictionary_lanes("500 lines, 128 faults, 128 patterns", &drawn(500, 32, 128, 128)),
    ];
    rows.into_iter().map(|row| row())
}

/// The largest table, also where there is little else to do.
pub fn orders() -> impl Iterator<Item = Row> {
    let rows: [fn() -> Row; 2] = [
        || parts::orders("2,048 lines, 256 faults, 256 patterns", &files()),
        || parts::orders("32 lines, 256 faults, 256 patterns", &drawn(32, 16, 256, 256)),
    ];
    rows.into_iter().map(|row| row())
}

#[cfg(test)]
mod tests {
    use super::*;
    use second::search_heads::{searched, Placed};
    use second::{Circuit, Fault, Outcome};

    /// The numbers of inputs and of head lines, how the search over these ends with so many nodes at most, and how many it looks at.
    fn heads(files: Files, budget: u64) -> (usize, usize, Outcome, u64) {
        let circuit = Circuit::read(&files.circuit).expect("sound");
        let fault = Fault::read_all(&circuit, &files.faults, 1).expect("sound")[0];
        let placed = Placed::new(&circuit);
        assert!(placed.serves(fault));
        let found = searched(&circuit, fault, budget);
        (files.inputs(), placed.heads().count(), found.outcome, found.nodes)
    }

    #[test]
    fn trees_are_what_rows_say() {
        assert_eq!(heads(redundant(), 100), (20, 20, Outcome::GivenUp, 100));
        assert_eq!(heads(redundant_over_trees(), 100), (60, 20, Outcome::GivenUp, 100));
        assert_eq!(heads(wide_trees(), u64::MAX), (64, 2, Outcome::Redundant, 7));
    }
}

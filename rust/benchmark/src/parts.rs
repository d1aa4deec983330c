//! Each part beside its baseline, on any input.
use crate::baseline::gates::{Branches, Gates, Table};
use crate::baseline::lanes::gates::{self as words, Choices, WordGates};
use crate::baseline::lanes::{ByFault, ByPattern, Order};
use crate::baseline::{self, search_all::Lent};
use crate::timing::{race, race_all, timed, Row};
use cases::Files;
use std::hint::black_box;
use ullimaqsu::raw::{enter, Call};

pub fn check(name: &str, files: &Files) -> Row {
    let (mut proved, mut plain) = ([0; 32], [0; 32]);
    let row = race(
        name,
        || enter(Call::Check { circuit: black_box(&files.circuit), answer: &mut proved }),
        || baseline::check::enter(black_box(&files.circuit), &mut plain),
    );
    assert_eq!(proved, plain);
    row
}

/// A dictionary's table, its work memory and its answer.
type Made<W> = (Vec<u8>, Vec<W>, [u8; 32]);

/// What a dictionary maker is lent that takes so much of work memory for each line.
fn unmade<W: Clone + Default>(files: &Files, each_line: usize) -> Made<W> {
    (vec![0; files.entries()], vec![W::default(); each_line * files.lines()], [0; 32])
}

fn proved_bytes(Files { circuit, faults, patterns }: &Files, (table, work, answer): &mut Made<u8>) -> u32 {
    enter(Call::Dictionary { circuit: black_box(circuit), faults, patterns, table, work, answer })
}

fn proved_lanes(Files { circuit, faults, patterns }: &Files, (table, work, answer): &mut Made<u64>) -> u32 {
    enter(Call::DictionaryLanes { circuit: black_box(circuit), faults, patterns, table, work, answer })
}

fn plain_bytes<G: Gates>(Files { circuit, faults, patterns }: &Files, (table, work, answer): &mut Made<u8>) -> u32 {
    baseline::dictionary::enter::<G>(black_box(circuit), faults, patterns, table, work, answer)
}

fn plain_lanes<G: WordGates, O: Order>(Files { circuit, faults, patterns }: &Files, (table, work, answer): &mut Made<u64>) -> u32 {
    baseline::lanes::enter::<G, O>(black_box(circuit), faults, patterns, table, work, answer)
}

/// The dictionary beside Rust with one of the forms of the gate rule.
pub fn dictionary<G: Gates>(name: &str, files: &Files) -> Row {
    let (mut proved, mut plain) = (unmade(files, 2), unmade(files, 2));
    let row = race(name, || proved_bytes(files, &mut proved), || plain_bytes::<G>(files, &mut plain));
    assert_eq!(proved, plain);
    row
}

/// The columns of the dictionary that carries 64 patterns at once. It runs beside the same in Rust, by choices and by branches over the kinds of
/// gates; beside Rust that simulates a byte at a time, by branches and by a table; and beside the proved dictionary that does so.
pub const BESIDE_LANES: [&str; 6] = ["proved", "Rust", "branching", "Rust bytes", "by table", "proved bytes"];

/// The dictionary that carries 64 patterns at once, in these columns.
pub fn dictionary_lanes(name: &str, files: &Files) -> Row<6> {
    let [mut proved, mut choices, mut branches] = [(); 3].map(|_| unmade(files, 4));
    let [mut bytes, mut by_table, mut proved_by_byte] = [(); 3].map(|_| unmade(files, 2));
    let row = race_all(
        name,
        [
            &mut timed(|| proved_lanes(files, &mut proved)),
            &mut timed(|| plain_lanes::<Choices, ByPattern>(files, &mut choices)),
            &mut timed(|| plain_lanes::<words::Branches, ByPattern>(files, &mut branches)),
            &mut timed(|| plain_bytes::<Branches>(files, &mut bytes)),
            &mut timed(|| plain_bytes::<Table>(files, &mut by_table)),
            &mut timed(|| proved_bytes(files, &mut proved_by_byte)),
        ],
    );
    assert_eq!([&proved, &proved], [&choices, &branches], "{name}");
    assert_eq!([&proved.0; 3], [&bytes.0, &by_table.0, &proved_by_byte.0], "{name}");
    row
}

/// The columns of what the order of its entries costs such a dictionary.
pub const ORDERS: [&str; 2] = ["by pattern", "by fault"];

/// The Rust that carries 64 patterns at once, with its entries in the table's order, and with those of a fault in one run of memory.
pub fn orders(name: &str, files: &Files) -> Row {
    let (mut by_pattern, mut by_fault) = (unmade(files, 4), unmade(files, 4));
    let row =
        race(name, || plain_lanes::<Choices, ByPattern>(files, &mut by_pattern), || plain_lanes::<Choices, ByFault>(files, &mut by_fault));
    let mut rows = by_pattern.0.chunks_exact(files.fault_count()).enumerate();
    assert!(rows.all(|(pattern, row)| by_fault.0[pattern..].iter().step_by(files.pattern_count()).eq(row)), "{name}");
    row
}

/// The table of a dictionary.
pub fn table(files: &Files) -> Vec<u8> {
    let mut made = unmade(files, 2);
    assert_eq!(proved_bytes(files, &mut made), 0, "sound");
    made.0
}

pub fn compact(name: &str, faults: usize, table: &[u8]) -> Row {
    let (fault_count, pattern_count) = (faults as u64, (table.len() / faults) as u64);
    let mut proved = (vec![0; table.len() / faults], [0; 32]);
    let mut plain = proved.clone();
    let row = race(
        name,
        || {
            let (marks, answer) = &mut proved;
            enter(Call::Compact { fault_count, pattern_count, table: black_box(table), marks, answer })
        },
        || baseline::compact::enter(fault_count, pattern_count, black_box(table), &mut plain.0, &mut plain.1),
    );
    assert_eq!(proved, plain);
    row
}

/// The compactor beside its definition run naively.
pub fn compact_naively(name: &str, faults: usize, table: &[u8]) -> Row {
    let (fault_count, pattern_count) = (faults as u64, (table.len() / faults) as u64);
    let (mut proved, mut plain, mut answer) = (vec![0; table.len() / faults], vec![0; table.len() / faults], [0; 32]);
    let row = race(
        name,
        || enter(Call::Compact { fault_count, pattern_count, table: black_box(table), marks: &mut proved, answer: &mut answer }),
        || {
            baseline::compact::naive(faults, black_box(table), &mut plain);
            0
        },
    );
    assert_eq!(proved, plain);
    row
}

/// The list of kept patterns that the compactor makes of a table.
pub fn compacted(faults: usize, table: &[u8]) -> Vec<u8> {
    let mut marks = vec![0; table.len() / faults];
    ullimaqsu::compact(faults as u64, marks.len() as u64, table, &mut marks).expect("sound");
    marks
}

pub fn audit(name: &str, faults: usize, table: &[u8], marks: &[u8]) -> Row {
    let (fault_count, pattern_count) = (faults as u64, marks.len() as u64);
    let (mut proved, mut plain) = ([0; 32], [0; 32]);
    let row = race(
        name,
        || enter(Call::Audit { fault_count, pattern_count, table: black_box(table), marks, answer: &mut proved }),
        || baseline::audit::enter(fault_count, pattern_count, black_box(table), marks, &mut plain),
    );
    assert_eq!(proved, plain);
    row
}

/// The audit of the list that the compactor makes, beside the compactor.
pub fn audit_beside_compactor(name: &str, faults: usize, table: &[u8]) -> Row {
    let (fault_count, pattern_count) = (faults as u64, (table.len() / faults) as u64);
    let list = compacted(faults, table);
    let (mut marks, mut found, mut done) = (vec![0; list.len()], [0; 32], [0; 32]);
    let row = race(
        name,
        || enter(Call::Audit { fault_count, pattern_count, table: black_box(table), marks: &list, answer: &mut found }),
        || enter(Call::Compact { fault_count, pattern_count, table: black_box(table), marks: &mut marks, answer: &mut done }),
    );
    assert_eq!((marks, found), (list, done), "what the compactor does, the audit finds sound");
    row
}

/// A report to suspects that the last pattern failed. From the second round on no fault is left to be taken away, and all is gone through as in the
/// first.
pub fn report(name: &str, faults: usize, table: &[u8]) -> Row {
    let (fault_count, pattern_count) = (faults as u64, (table.len() / faults) as u64);
    let (pattern, failed) = (pattern_count - 1, 1);
    let mut proved = ([0; ullimaqsu::SUSPECTS], [0; 32]);
    assert_eq!(enter(Call::SuspectsOpen { fault_count, pattern_count, table, state: &mut proved.0, answer: &mut proved.1 }), 0, "sound");
    let mut plain = proved;
    let row = race(
        name,
        || {
            let (state, answer) = &mut proved;
            enter(Call::SuspectsReport { fault_count, pattern_count, table: black_box(table), pattern, failed, state, answer })
        },
        || baseline::suspects::enter([fault_count, pattern_count], black_box(table), pattern, failed, &mut plain.0, &mut plain.1),
    );
    assert_eq!(proved, plain);
    row
}

/// A test buffer, a work memory and an answer.
type Searched = (Vec<u8>, Vec<u8>, [u8; 32]);

/// A search for the first of the faults, proved and in Rust, given the circuit and the fault.
fn one_search(
    name: &str,
    files: &Files,
    proved_by: impl Fn(&[u8], &[u8], &mut Searched) -> u32,
    plain_by: impl Fn(&[u8], &[u8], &mut Searched) -> u32,
) -> Row {
    let (circuit, fault) = (&files.circuit, &files.faults[..8]);
    let mut proved = (vec![0; files.inputs()], vec![0; 2 * files.lines()], [0; 32]);
    let mut plain = proved.clone();
    let row = race(name, || proved_by(black_box(circuit), fault, &mut proved), || plain_by(black_box(circuit), fault, &mut plain));
    assert_eq!(proved, plain);
    row
}

fn proved_patterns(circuit: &[u8], fault: &[u8], budget: u64, (test, work, answer): &mut Searched) -> u32 {
    enter(Call::Search { circuit, fault, budget, test, work, answer })
}

fn proved_heads(circuit: &[u8], fault: &[u8], budget: u64, (test, work, answer): &mut Searched) -> u32 {
    enter(Call::SearchHeads { circuit, fault, budget, test, work, answer })
}

fn plain_heads<G: Gates>(circuit: &[u8], fault: &[u8], budget: u64, (test, work, answer): &mut Searched) -> u32 {
    baseline::search_heads::enter::<G>(circuit, fault, budget, test, work, answer)
}

/// The search, likewise.
pub fn search<G: Gates>(name: &str, files: &Files, budget: u64) -> Row {
    one_search(
        name,
        files,
        |circuit, fault, lent| proved_patterns(circuit, fault, budget, lent),
        |circuit, fault, (test, work, answer)| baseline::search::enter::<G>(circuit, fault, budget, test, work, answer),
    )
}

/// The search that decides at head lines, likewise.
pub fn search_heads<G: Gates>(name: &str, files: &Files, budget: u64) -> Row {
    one_search(
        name,
        files,
        |circuit, fault, lent| proved_heads(circuit, fault, budget, lent),
        |circuit, fault, lent| plain_heads::<G>(circuit, fault, budget, lent),
    )
}

/// The same beside the proved search over patterns, on a circuit without trees, where both do the same.
pub fn search_heads_beside_search(name: &str, files: &Files, budget: u64) -> Row {
    one_search(
        name,
        files,
        |circuit, fault, lent| proved_heads(circuit, fault, budget, lent),
        |circuit, fault, lent| proved_patterns(circuit, fault, budget, lent),
    )
}

/// A search for one fault, with a budget.
type OneSearch = fn(&[u8], &[u8], u64, &mut Searched) -> u32;

/// The proved search over head lines beside another, for each of the faults one after the other. A round ends with what the last of them leaves.
fn singly(name: &str, files: &Files, budget: u64, other: OneSearch) -> Row {
    let each = |circuit: &[u8], lent: &mut Searched, search: OneSearch| {
        files.faults.chunks_exact(8).map(|fault| search(circuit, fault, budget, lent)).sum()
    };
    one_search(name, files, |circuit, _, lent| each(circuit, lent, proved_heads), |circuit, _, lent| each(circuit, lent, other))
}

/// Beside the same in Rust.
pub fn search_heads_singly<G: Gates>(name: &str, files: &Files, budget: u64) -> Row {
    singly(name, files, budget, plain_heads::<G>)
}

/// Beside the proved search over patterns.
pub fn search_heads_singly_beside_search(name: &str, files: &Files, budget: u64) -> Row {
    singly(name, files, budget, proved_patterns)
}

/// What the search for all of the faults is lent.
fn lent(files: &Files) -> Lent {
    let count = files.fault_count();
    Lent { outcomes: vec![0; count], counts: vec![0; count], tests: vec![0; count * files.inputs()], work: vec![0; 2 * files.lines()] }
}

fn enter_search_all(files: &Files, budgets: &[u64], lent: &mut Lent, answer: &mut [u8; 32]) -> u32 {
    let Lent { outcomes, counts, tests, work } = lent;
    enter(Call::SearchAll { circuit: black_box(&files.circuit), faults: &files.faults, budgets, outcomes, counts, tests, work, answer })
}

/// The search for all of the faults in one call, with this budget for each, likewise.
pub fn search_all<G: Gates>(name: &str, files: &Files, budget: u64) -> Row {
    let budgets = vec![budget; files.fault_count()];
    let mut proved = (lent(files), [0; 32]);
    let mut plain = proved.clone();
    let row = race(
        name,
        || enter_search_all(files, &budgets, &mut proved.0, &mut proved.1),
        || baseline::search_all::enter::<G>(black_box(&files.circuit), &files.faults, &budgets, &mut plain.0, &mut plain.1),
    );
    assert_eq!(proved, plain);
    row
}

/// The same beside calls of the proved search, one after the other.
pub fn search_all_singly(name: &str, files: &Files, budget: u64) -> Row {
    let budgets = vec![budget; files.fault_count()];
    let (mut proved, mut single, mut answer) = (lent(files), lent(files), [0; 32]);
    let row = race(
        name,
        || enter_search_all(files, &budgets, &mut proved, &mut answer),
        || {
            let tests = single.tests.chunks_exact_mut(files.inputs());
            for (j, (fault, test)) in files.faults.chunks_exact(8).zip(tests).enumerate() {
                let found = ullimaqsu::search(black_box(&files.circuit), fault, budget, test, &mut single.work).expect("sound");
                (single.outcomes[j], single.counts[j]) = (found.outcome as u8, found.nodes);
            }
            0
        },
    );
    assert_eq!(proved, single);
    row
}

/// The clauses of the first of the faults, and room to spare.
pub fn clauses(name: &str, files: &Files) -> Row {
    let (circuit, fault) = (&files.circuit, &files.faults[..8]);
    let mut proved = (vec![0; 50 * files.lines()], [0; 32]);
    let mut plain = proved.clone();
    let row = race(
        name,
        || enter(Call::Clauses { circuit: black_box(circuit), fault, words: &mut proved.0, answer: &mut proved.1 }),
        || baseline::clauses::enter(black_box(circuit), fault, &mut plain.0, &mut plain.1),
    );
    assert_eq!(proved, plain);
    row
}

pub fn control(name: &str, circuit: &[u8]) -> Row {
    let mut proved = (vec![0.0; circuit.len() / 8], vec![0.0; circuit.len() / 8], [0; 32]);
    let mut plain = proved.clone();
    let row = race(
        name,
        || {
            let (ones, zeros, answer) = &mut proved;
            enter(Call::Control { circuit: black_box(circuit), ones, zeros, answer })
        },
        || baseline::control::enter(black_box(circuit), &mut plain.0, &mut plain.1, &mut plain.2),
    );
    assert_eq!(proved, plain);
    row
}

pub fn bench(name: &str, text: &[u8]) -> Row {
    let mut proved = (vec![0; 16_384], [0; 32]);
    let mut plain = proved.clone();
    let row = race(
        name,
        || enter(Call::Bench { text: black_box(text), circuit: &mut proved.0, answer: &mut proved.1 }),
        || baseline::bench::enter(black_box(text), &mut plain.0, &mut plain.1),
    );
    assert_eq!(proved, plain);
    row
}

/// The names of a text's lines.
pub fn bench_names(name: &str, text: &[u8]) -> Row {
    let mut proved = (vec![0; 2_048], [0; 32]);
    let mut plain = proved.clone();
    let row = race(
        name,
        || enter(Call::BenchNames { text: black_box(text), places: &mut proved.0, answer: &mut proved.1 }),
        || baseline::bench::enter_names(black_box(text), &mut plain.0, &mut plain.1),
    );
    assert_eq!(proved, plain);
    row
}

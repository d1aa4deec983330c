//! What the C entries return and leave behind.
use crate::control::chance;
use crate::search_all::Lent;
use crate::{Clocked, Dictionary, Halvings, Refusal, Searched, Slice, Suspects, Written};

/// What a caller in C sees: the number returned, the answer area, and the lent memory in order.
#[derive(Clone, Debug, PartialEq, Eq)]
pub struct Seen {
    pub returned: u32,
    pub answer: Vec<u8>,
    pub lent: Vec<Slice>,
}

/// What an entry does with the outcome of its part, which on success is the numbers of the answer and what lent memory then holds.
///
/// An area of 32 bytes takes the numbers, or the place of the refusal; lent memory stays where something was refused. An area of another
/// size is refused before all else, and everything stays.
pub fn seen(area: &[u8], untouched: Vec<Slice>, outcome: Result<(Vec<u64>, Vec<Slice>), Refusal>) -> Seen {
    if area.len() != 32 {
        return Seen { returned: 10, answer: area.to_vec(), lent: untouched };
    }
    let (returned, numbers, lent) = match outcome {
        Ok((numbers, lent)) => (0, numbers, lent),
        Err(Refusal { number, place }) => (number, vec![place as u64], untouched),
    };
    let mut answer: Vec<u8> = numbers.into_iter().flat_map(u64::to_le_bytes).collect();
    answer.resize(32, 0);
    Seen { returned, answer, lent }
}

pub fn check(circuit: &[u8], answer: &[u8]) -> Seen {
    seen(answer, vec![], crate::check(circuit).map(|counts| (counts.numbers(), vec![])))
}

pub fn dictionary(circuit: &[u8], faults: &[u8], patterns: &[u8], table: &[u8], work: &[u8], answer: &[u8]) -> Seen {
    made(table, work, answer, crate::dictionary(circuit, faults, patterns, table.len(), work.len()))
}

pub fn dictionary_lanes(circuit: &[u8], faults: &[u8], patterns: &[u8], table: &[u8], work: &[u64], answer: &[u8]) -> Seen {
    made(table, work, answer, crate::dictionary_lanes(circuit, faults, patterns, table.len(), work.len()))
}

pub fn unfold(circuit: &[u8], states: &[u8], steps: u64, unfolded: &[u8], answer: &[u8]) -> Seen {
    let written = crate::unfold(circuit, states, steps, unfolded.len());
    seen(answer, vec![unfolded.to_vec().into()], written.map(|records| (vec![records.len() as u64 / 8], vec![records.into()])))
}

pub fn unfold_dictionary(
    clocked: Result<Clocked, Refusal>,
    faults: &[u8],
    patterns: &[u8],
    table: &[u8],
    work: &[u8],
    answer: &[u8],
) -> Seen {
    let dictionary = |clocked| crate::unfold_dictionary(clocked, faults, patterns, table.len(), work.len());
    made(table, work, answer, clocked.and_then(dictionary))
}

/// What the entry of a dictionary maker does, whatever its work memory is of.
fn made<W: Clone>(table: &[u8], work: &[W], answer: &[u8], made: Result<Dictionary<W>, Refusal>) -> Seen
where
    Slice: From<Vec<W>>,
{
    let untouched = vec![table.to_vec().into(), work.to_vec().into()];
    seen(answer, untouched, made.map(|Dictionary { table, work }| (vec![], vec![table.into(), work.into()])))
}

pub fn compact(fault_count: u64, pattern_count: u64, table: &[u8], marks: &[u8], answer: &[u8]) -> Seen {
    let compacted = crate::compact(fault_count, pattern_count, table, marks.len());
    seen(answer, vec![marks.to_vec().into()], compacted.map(|marks| (vec![], vec![marks.into()])))
}

pub fn audit(fault_count: u64, pattern_count: u64, table: &[u8], marks: &[u8], answer: &[u8]) -> Seen {
    let found = crate::audit(fault_count, pattern_count, table, marks);
    seen(answer, vec![], found.map(|finding| (finding.numbers(), vec![])))
}

pub fn suspects_open(fault_count: u64, pattern_count: u64, table: &[u8], state: &[u8], answer: &[u8]) -> Seen {
    stood(state, answer, Suspects::open(fault_count, pattern_count, table, state.len()))
}

pub fn suspects_report(counts: [u64; 2], table: &[u8], pattern: u64, failed: u64, state: &[u8], answer: &[u8]) -> Seen {
    stood(state, answer, Suspects::lent(state).and_then(|suspects| suspects.and(counts, table, pattern, failed)))
}

/// What an entry does that leaves suspects in the state.
pub fn stood(state: &[u8], answer: &[u8], suspects: Result<Suspects, Refusal>) -> Seen {
    seen(answer, vec![state.to_vec().into()], suspects.map(|suspects| (vec![suspects.remaining()], vec![suspects.area().into()])))
}

pub fn suspects_marks(state: &[u8], marks: &[u8], answer: &[u8]) -> Seen {
    let marked = Suspects::lent(state).and_then(|suspects| {
        let numbers = vec![suspects.remaining(), suspects.faults as u64, suspects.patterns as u64];
        Ok((numbers, vec![suspects.marks(marks.len())?.into()]))
    });
    seen(answer, vec![marks.to_vec().into()], marked)
}

pub fn search(circuit: &[u8], fault: &[u8], budget: u64, test: &[u8], work: &[u8], answer: &[u8]) -> Seen {
    found(test, work, answer, crate::search(circuit, fault, budget, test.len(), work.len()))
}

pub fn search_heads(circuit: &[u8], fault: &[u8], budget: u64, test: &[u8], work: &[u8], answer: &[u8]) -> Seen {
    found(test, work, answer, crate::search_heads(circuit, fault, budget, test.len(), work.len()))
}

/// What the entry of a search for one fault does.
pub fn found(test: &[u8], work: &[u8], answer: &[u8], searched: Result<Searched, Refusal>) -> Seen {
    let written = |Searched { outcome, nodes, test: found, work: last }| {
        (vec![outcome as u64, nodes], vec![found.unwrap_or(test.to_vec()).into(), last.unwrap_or(work.to_vec()).into()])
    };
    seen(answer, vec![test.to_vec().into(), work.to_vec().into()], searched.map(written))
}

/// A test stays as lent where there is none, and the work memory is that of the last search which writes there.
pub fn search_all(circuit: &[u8], faults: &[u8], budgets: &[u64], lent: Lent, answer: &[u8]) -> Seen {
    let Lent { outcomes, counts, tests, work } = lent;
    let written = |all: Vec<Searched>| {
        let outcomes: Vec<u8> = all.iter().map(|one| one.outcome as u8).collect();
        let counts: Vec<u64> = all.iter().map(|one| one.nodes).collect();
        let each = all.iter().zip(tests.chunks(tests.len() / all.len()));
        let tests: Vec<u8> = each.flat_map(|(one, lent)| one.test.as_deref().unwrap_or(lent).to_vec()).collect();
        let work = all.into_iter().rev().find_map(|one| one.work).unwrap_or(work.to_vec());
        (vec![], vec![outcomes.into(), counts.into(), tests.into(), work.into()])
    };
    let untouched = vec![outcomes.to_vec().into(), counts.to_vec().into(), tests.to_vec().into(), work.to_vec().into()];
    seen(answer, untouched, crate::search_all(circuit, faults, budgets, lent).map(written))
}

pub fn clauses(circuit: &[u8], fault: &[u8], words: &[i32], answer: &[u8]) -> Seen {
    let written = crate::clauses(circuit, fault, words.len()).map(|Written { words: new, clauses, variables }| {
        let numbers = [new.len(), clauses, variables].map(|number| number as u64).to_vec();
        (numbers, vec![[&new[..], &words[new.len()..]].concat().into()])
    });
    seen(answer, vec![words.to_vec().into()], written)
}

pub fn control(circuit: &[u8], ones: &[f64], zeros: &[f64], answer: &[u8]) -> Seen {
    let written = |lines: Vec<Halvings>| {
        let chances = |halvings: fn(&Halvings) -> u32| lines.iter().map(halvings).map(chance).collect::<Vec<f64>>().into();
        (vec![], vec![chances(|line| line.one), chances(|line| line.zero)])
    };
    let untouched = vec![ones.to_vec().into(), zeros.to_vec().into()];
    seen(answer, untouched, crate::control(circuit, ones.len(), zeros.len()).map(written))
}

pub fn bench(text: &[u8], circuit: &[u8], answer: &[u8]) -> Seen {
    let read = crate::bench(text, circuit.len()).map(|records| {
        let rest = &circuit[records.len()..];
        (vec![records.len() as u64 / 8], vec![[&records[..], rest].concat().into()])
    });
    seen(answer, vec![circuit.to_vec().into()], read)
}

pub fn bench_names(text: &[u8], places: &[u32], answer: &[u8]) -> Seen {
    let named = crate::bench_names(text, places.len()).map(|names| {
        let rest = &places[names.len()..];
        (vec![names.len() as u64], vec![[&names[..], rest].concat().into()])
    });
    seen(answer, vec![places.to_vec().into()], named)
}

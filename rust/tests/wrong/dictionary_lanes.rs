//! Dictionary makers of 64 patterns at once that are wrong in one way each.
use super::changed::{accepted, written_though_refused};
use super::rules::Rule;
use super::{Case, DictionaryLanes};
use second::circuit::Gate;
use second::dictionary::entry;
use second::dictionary_lanes::{words, GROUP};
use second::entries::Seen;
use second::{Entry, Fault, Given, Pattern, Site, Value};

/// What the second program says, changed where it accepts by what the case stands for.
fn then(case: &DictionaryLanes, change: impl FnOnce(&Given, &mut Seen)) -> Seen {
    accepted(case, |seen| change(&Given::read(&case.circuit, &case.faults, &case.patterns).expect("accepted"), seen))
}

/// What the second program says, where it accepts, with the right words changed.
fn with_words(case: &DictionaryLanes, change: fn(&Given, &mut Vec<u64>)) -> Seen {
    then(case, |given, seen| change(given, seen.lent[1].u64()))
}

/// What the second program says, where it accepts, with the words of other lanes.
fn with_lanes(case: &DictionaryLanes, change: fn(&Given, &mut Vec<Pattern>)) -> Seen {
    then(case, |given, seen| {
        let mut lanes = given.last_lanes();
        change(given, &mut lanes);
        seen.lent[1] = given.circuit.work_words(&lanes, given.last_fault()).into();
    })
}

/// An output's line, and its good and faulty values.
type Output = (usize, Value, Value);

/// What makes an entry.
type ByOutputs = fn(Fault, &[Output]) -> u8;

/// What the second program says, where it accepts, with the table by another entry.
fn with_entries(case: &DictionaryLanes, entry: ByOutputs) -> Seen {
    then(case, |given, seen| *seen.lent[0].u8() = table_by(given, Gate::value, entry))
}

fn table_by(given: &Given, rule: Rule, entry: ByOutputs) -> Vec<u8> {
    let circuit = &given.circuit;
    let of = |pattern: &[Value], fault| {
        let (good, faulty) = (circuit.values_by(rule, pattern, None), circuit.values_by(rule, pattern, Some(fault)));
        entry(fault, &circuit.outputs().map(|line| (line, good[line], faulty[line])).collect::<Vec<_>>())
    };
    given.patterns.iter().flat_map(|pattern| given.faults.iter().map(|&fault| of(pattern, fault))).collect()
}

/// The right entry, as a byte.
fn right(outputs: &[Output]) -> u8 {
    entry(outputs.iter().map(|&(_, good, faulty)| (good, faulty))) as u8
}

/// How many lanes of the last group have a pattern.
fn used(given: &Given) -> usize {
    (given.patterns.len() - 1) % GROUP + 1
}

/// The fault does nothing in the spare lanes if it is at such a site.
fn unstuck(given: &Given, words: &mut [u64], site: fn(Site) -> bool) {
    let (good, faulty) = words.split_at_mut(2 * given.circuit.lines.len());
    let lanes = u64::MAX >> (GROUP - used(given));
    if site(given.last_fault().site) {
        good.iter().zip(faulty).for_each(|(good, faulty)| *faulty = *faulty & lanes | good & !lanes);
    }
}

/// The gate rule but for XOR and XNOR, which look at the 1-lanes alone, so that an X is a 0.
fn xor_without_x(gate: Gate<Value>) -> Value {
    let differ = |a: Value, b: Value| (a == Some(true)) != (b == Some(true));
    match gate {
        Gate::Xor(a, b) => Some(differ(a, b)),
        Gate::Xnor(a, b) => Some(!differ(a, b)),
        other => other.value(),
    }
}

/// The gate rule but for AND and NAND, to which what is not 1 on both pins is a 0.
fn and_without_x(gate: Gate<Value>) -> Value {
    let both = |a: Value, b: Value| a == Some(true) && b == Some(true);
    match gate {
        Gate::And(a, b) => Some(both(a, b)),
        Gate::Nand(a, b) => Some(!both(a, b)),
        other => other.value(),
    }
}

/// Table and words by another gate rule.
pub fn by_rule(case: &DictionaryLanes, rule: Rule) -> Seen {
    then(case, |given, seen| {
        let lanes = given.last_lanes();
        let under = |fault| words(&lanes.iter().map(|pattern| given.circuit.values_by(rule, pattern, fault)).collect::<Vec<_>>());
        *seen.lent[0].u8() = table_by(given, rule, |_, outputs| right(outputs));
        *seen.lent[1].u64() = [under(None), under(Some(given.last_fault()))].concat();
    })
}

/// Only full groups are carried.
fn full_groups_alone(case: &DictionaryLanes) -> Seen {
    then(case, |given, seen| {
        let full = given.patterns.len() / GROUP * GROUP;
        let rows = full * given.faults.len();
        seen.lent[0].u8()[rows..].copy_from_slice(&case.table[rows..]);
        seen.lent[1] = match given.patterns[..full].chunks(GROUP).last() {
            Some(lanes) => given.circuit.work_words(lanes, given.last_fault()).into(),
            None => case.work.clone().into(),
        };
    })
}

type Wrong = (&'static str, fn(&DictionaryLanes) -> Seen);

pub const PROGRAMS: [Wrong; 25] = [
    ("carries 0s in the spare lanes", |case| {
        with_lanes(case, |given, lanes| lanes[used(given)..].iter_mut().for_each(|pattern| pattern.fill(Some(false))))
    }),
    ("carries the last pattern in the spare lanes too", |case| {
        with_lanes(case, |given, lanes| {
            let last = lanes[used(given) - 1].clone();
            lanes[used(given)..].fill(last);
        })
    }),
    ("leaves the group before in the spare lanes", |case| {
        with_lanes(case, |given, lanes| {
            if let Some(before) = given.patterns.chunks_exact(GROUP).last() {
                lanes[used(given)..].clone_from_slice(&before[used(given)..]);
            }
        })
    }),
    ("counts all lanes from the other end", |case| with_lanes(case, |_, lanes| lanes.reverse())),
    ("counts the lanes of a group from its other end", |case| with_lanes(case, |given, lanes| lanes[..used(given)].reverse())),
    ("leaves the work of the first group", |case| {
        with_lanes(case, |given, lanes| {
            let first = given.patterns.iter().take(GROUP);
            lanes.iter_mut().zip(first).for_each(|(lane, pattern)| lane.clone_from(pattern));
        })
    }),
    ("leaves the work of the first fault", |case| {
        then(case, |given, seen| seen.lent[1] = given.circuit.work_words(&given.last_lanes(), given.faults[0]).into())
    }),
    ("exchanges 1-lanes and 0-lanes", |case| with_words(case, |_, words| words.chunks_exact_mut(2).for_each(<[_]>::reverse))),
    ("puts the 1-lanes of all lines before their 0-lanes", |case| {
        with_words(case, |_, words| {
            let half = words.len() / 2;
            let sorted = |half: &[u64]| [0, 1].map(|from| half.iter().copied().skip(from).step_by(2).collect::<Vec<_>>()).concat();
            *words = [sorted(&words[..half]), sorted(&words[half..])].concat();
        })
    }),
    ("leaves the good words where the faulty ones belong", |case| {
        with_words(case, |_, words| {
            let half = words.len() / 2;
            words.copy_within(..half, half);
        })
    }),
    ("puts the faulty words before the good ones", |case| {
        with_words(case, |_, words| {
            let half = words.len() / 2;
            words.rotate_left(half);
        })
    }),
    ("does not stick a line in the spare lanes", |case| with_words(case, |given, words| unstuck(given, words, |site| site == Site::Line))),
    ("does not stick a pin in the spare lanes", |case| with_words(case, |given, words| unstuck(given, words, |site| site != Site::Line))),
    ("clears the spare lanes at the end", |case| {
        with_words(case, |given, words| words.iter_mut().for_each(|word| *word &= u64::MAX >> (GROUP - used(given))))
    }),
    ("leaves out the last group where it is not full", full_groups_alone),
    ("forgets X in a XOR", |case| by_rule(case, xor_without_x)),
    ("forgets X in an AND", |case| by_rule(case, and_without_x)),
    ("lays the table fault by fault", |case| {
        then(case, |given, seen| {
            let rows: Vec<Vec<Entry>> = given.rows();
            *seen.lent[0].u8() = (0..given.faults.len()).flat_map(|fault| rows.iter().map(move |row| row[fault] as u8)).collect();
        })
    }),
    ("lays each group over the first", |case| {
        then(case, |given, seen| {
            let mut table = case.table.clone();
            for group in seen.lent[0].u8().chunks(GROUP * given.faults.len()) {
                table[..group.len()].copy_from_slice(group);
            }
            seen.lent[0] = table.into();
        })
    }),
    ("adds unknown to fail", |case| {
        with_entries(case, |_, outputs| {
            let missed = outputs.iter().any(|(_, good, faulty)| good.is_some() && faulty.is_none());
            right(outputs) % 2 + 2 * u8::from(missed)
        })
    }),
    ("begins to compare behind the fault's line", |case| {
        with_entries(case, |fault, outputs| {
            let behind: Vec<_> = outputs.iter().copied().filter(|&(line, ..)| line > fault.line).collect();
            right(&behind)
        })
    }),
    ("answers the number of groups", |case| then(case, |given, seen| seen.answer[0] = given.patterns.len().div_ceil(GROUP) as u8)),
    ("counts 256 patterns in a byte", |case| {
        let mut seen = case.second();
        if seen.returned == 0 && case.table.len() == case.faults.len() / 8 * 256 {
            seen = DictionaryLanes { patterns: vec![], ..case.clone() }.second();
        }
        seen
    }),
    ("takes the first engine's 2 N for words", |case| {
        let mut seen = case.second();
        if seen.returned == 10 && case.work.len() == case.circuit.len() / 4 {
            seen.returned = 0;
        }
        seen
    }),
    ("writes the table though something is refused", written_though_refused),
];

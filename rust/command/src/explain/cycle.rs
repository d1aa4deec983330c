//! Refusal 16: a gate that depends on itself, or on one that does. The loop is shown.
use crate::notation::{at_place, line_of, Gate, Text};
use std::collections::HashMap;

/// The longest loop that is shown whole, and how many gates of a longer one are.
const MOST_SHOWN: usize = 8;
const SHOWN: usize = 6;

/// Of the gate of this number, from 0; nothing where there is no loop.
pub fn explain(text: &Text, gate: usize) -> Option<String> {
    let gates: Vec<&Gate> = text.gates().collect();
    let stuck = gates.get(gate)?;
    let round = nearest_loop(&sources(&gates), gate)?;
    let first = gates[round[0]];
    let needs = match round[0] == gate {
        true => String::new(),
        false => format!("needs {} (line {}), which ", first.name, line_of(text.bytes, first.name.at)),
    };
    let says = format!("gate {gate}, {}, can't be placed: it {needs}depends on itself: {}", stuck.name, shown(&gates, &round));
    Some(at_place(text.bytes, stuck.name.at, &says))
}

/// The gates that each gate reads.
fn sources(gates: &[&Gate]) -> Vec<Vec<usize>> {
    let number_of: HashMap<&[u8], usize> = gates.iter().zip(0..).map(|(gate, number)| (gate.name.name, number)).collect();
    gates.iter().map(|gate| gate.sources.iter().filter_map(|source| number_of.get(source.name).copied()).collect()).collect()
}

/// The shortest way round the nearest gate that depends on itself, of this one and those that it depends on: that gate and then always the one
/// that is read.
fn nearest_loop(sources: &[Vec<usize>], from: usize) -> Option<Vec<usize>> {
    let Followed { met, .. } = follow(sources, from);
    [from].into_iter().chain(met).find_map(|gate| way_round(&follow(sources, gate), gate))
}

/// What a gate depends on, itself only if it does.
struct Followed {
    /// The nearest first.
    met: Vec<usize>,
    /// The gate by which each was met.
    reader: HashMap<usize, usize>,
}

fn follow(sources: &[Vec<usize>], from: usize) -> Followed {
    let mut followed = Followed { met: vec![], reader: HashMap::new() };
    let (mut gate, mut next) = (from, 0);
    loop {
        for &source in &sources[gate] {
            followed.reader.entry(source).or_insert_with(|| {
                followed.met.push(source);
                gate
            });
        }
        match followed.met.get(next) {
            Some(&met) => gate = met,
            None => return followed,
        }
        next += 1;
    }
}

/// From a gate back to itself, if it was met: by who reads whom, turned round.
fn way_round(followed: &Followed, from: usize) -> Option<Vec<usize>> {
    let mut way = vec![];
    let mut gate = *followed.reader.get(&from)?;
    while gate != from {
        way.push(gate);
        gate = followed.reader[&gate];
    }
    way.push(from);
    way.reverse();
    Some(way)
}

fn shown(gates: &[&Gate], round: &[usize]) -> String {
    let name = |gate: usize| gates[gate].name;
    let shown = if round.len() > MOST_SHOWN { SHOWN } else { round.len() - 1 };
    let reads: Vec<String> = round[1..=shown].iter().map(|&gate| format!("reads {}", name(gate))).collect();
    let back = format!("reads {}", name(round[0]));
    let whole = match round.len() > MOST_SHOWN {
        true => format!("{}, and so on, {} gates in all, of which the last {back}", reads.join(", which "), round.len()),
        false => reads.into_iter().chain([back]).collect::<Vec<_>>().join(", which "),
    };
    format!("{} {whole}", name(round[0]))
}

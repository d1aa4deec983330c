//! The chances of a circuit's lines by their names, as numbers of halvings, found differently from how the library finds them: a gate has a list of
//! ways to get a value, and each is followed back to the inputs.
use crate::harness::named::{kind, Named};
use cases::circuits::{gate, record, sources, INPUT, SELECTOR};
use std::collections::HashMap;

/// The ways in which a gate of a kind gets a value: in each what its pins have to see, in order, or `-` where that is all the same.
pub type Ways = fn(&str, bool) -> &'static [&'static str];

/// How chances are made, so that wrong ones can be made too.
#[derive(Clone, Copy)]
pub struct Rule {
    pub ways: Ways,
    /// How many halvings a pin adds where so many pins read its line.
    pub halvings: fn(usize) -> u32,
    /// The most halvings that a line has.
    pub most: u32,
}

pub const RIGHT: Rule = Rule { ways, halvings: |pins| u32::from(pins > 1), most: 500 };

pub fn ways(kind: &str, value: bool) -> &'static [&'static str] {
    match (kind, value) {
        ("BUFF", false) | ("NOT", true) => &["0"],
        ("BUFF", true) | ("NOT", false) => &["1"],
        ("AND", false) | ("NAND", true) => &["0-", "-0"],
        ("AND", true) | ("NAND", false) => &["11"],
        ("OR", false) | ("NOR", true) => &["00"],
        ("OR", true) | ("NOR", false) => &["1-", "-1"],
        ("XOR", false) | ("XNOR", true) => &["00", "11"],
        ("XOR", true) | ("XNOR", false) => &["01", "10"],
        ("SELECTOR", false) => &["0-0", "-01"],
        ("SELECTOR", true) => &["1-0", "-11"],
        _ => panic!("{kind} is no gate"),
    }
}

/// A line with its halvings for 1 and for 0.
#[derive(Clone, Copy, Debug, PartialEq, Eq)]
pub struct Row<'a> {
    pub line: &'a str,
    pub one: u32,
    pub zero: u32,
}

impl Row<'_> {
    /// The halvings of the harder value, and then of the other.
    pub fn hardness(&self) -> (u32, u32) {
        (self.one.max(self.zero), self.one.min(self.zero))
    }
}

/// The lines by name: the kind of each, and the names of what its pins read.
type Gates<'a> = HashMap<&'a str, (&'static str, Vec<&'a str>)>;

struct Chances<'a> {
    rule: Rule,
    gates: Gates<'a>,
    /// How many pins read each line.
    pins: HashMap<&'a str, usize>,
    known: HashMap<(&'a str, bool), u32>,
}

impl<'a> Chances<'a> {
    fn new(named: &'a Named, rule: Rule) -> Chances<'a> {
        let name = |line: usize| named.names[line].as_str();
        let gate = |line: usize| {
            let gate = named.circuit.lines[line].gate;
            (name(line), (kind(gate), gate.sources().into_iter().map(name).collect()))
        };
        let gates: Gates = (0..named.names.len()).map(gate).collect();
        let mut pins = HashMap::new();
        gates.values().flat_map(|(_, sources)| sources).for_each(|source| *pins.entry(*source).or_default() += 1);
        Chances { rule, gates, pins, known: HashMap::new() }
    }

    /// The halvings of a line for a value: of the easiest way.
    fn halvings(&mut self, line: &'a str, value: bool) -> u32 {
        if let Some(&halvings) = self.known.get(&(line, value)) {
            return halvings;
        }
        let (kind, sources) = self.gates[line].clone();
        let halvings = match kind {
            "INPUT" => 0,
            kind => (self.rule.ways)(kind, value).iter().map(|way| self.along(way, &sources)).min().expect("a way"),
        };
        let halvings = halvings.min(self.rule.most);
        self.known.insert((line, value), halvings);
        halvings
    }

    /// The halvings of all that a way asks for, together.
    fn along(&mut self, way: &str, sources: &[&'a str]) -> u32 {
        let asked = sources.iter().zip(way.chars()).filter(|(_, value)| *value != '-');
        asked.map(|(line, value)| self.halvings(line, value == '1') + (self.rule.halvings)(self.pins[line])).sum()
    }
}

/// The rows of all lines, in their order.
pub fn rows(named: &Named, rule: Rule) -> Vec<Row<'_>> {
    let mut chances = Chances::new(named, rule);
    let mut row = |line| Row { line, one: chances.halvings(line, true), zero: chances.halvings(line, false) };
    named.names.iter().map(|name| row(name)).collect()
}

/// Whether a way allows what the pins see.
fn allows(way: &str, seen: &[Option<bool>]) -> bool {
    way.chars().zip(seen).all(|(value, seen)| value == '-' || Some(value == '1') == *seen)
}

/// The ways of each kind and value are those of the second program's gates: what the pins see gives the value exactly if some way allows it.
#[test]
fn ways_of_gates() {
    let inputs = record(INPUT, false, 0, 0).repeat(3);
    for number in 1..=SELECTOR {
        let named = Named::of_records(&[&inputs[..], &gate(number, true, [0, 1, 2])].concat());
        for vector in 0..8 {
            let seen = [0, 1, 2].map(|pin| Some(vector >> pin & 1 == 1));
            let (line, pins) = (named.circuit.values(&seen, None)[3], &seen[..sources(number)]);
            for value in [false, true] {
                let ways = ways(kind(named.circuit.lines[3].gate), value);
                assert!(ways.iter().all(|way| way.len() == pins.len()));
                assert_eq!(ways.iter().any(|way| allows(way, pins)), line == Some(value), "kind {number}, {seen:?}");
            }
        }
    }
}

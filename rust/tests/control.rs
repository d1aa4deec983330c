//! How hard lines are to set against the second program, bit by bit, and against the same in floating point numbers.
#[path = "wrong/answered.rs"]
mod answered;
#[path = "wrong/but_for.rs"]
mod but_for;
#[path = "wrong/chances.rs"]
mod chances;
#[path = "wrong/changed.rs"]
mod changed;
#[path = "harness/defects.rs"]
mod defects;
mod harness;
#[path = "wrong/control.rs"]
mod wrong;

use cases::circuits::{self, circuit, selecting, small, BUFFER, SELECTOR};
use cases::control::{at_the_end, chain, dual, every, every_kind, one_gate};
use cases::directory::root;
use cases::selects::{self, WIRED};
use cases::{clocked, damage, drawn, placed, trees, Random, Sort};
use chances::{by, floored, Way, RIGHT, RULES};
use defects::defects;
use harness::{compare, first_defect_is_told, first_difference, library, wrong_programs_are_seen, Case, Control, Defect};
use second::control::chance;
use second::entries::{self, Seen};
use second::Circuit;
use std::fs;

/// How lines are read, and how near the floor their chances are.
const READ: [Sort; 4] =
    ["pins of two gates read a line", "pins of one gate alone read a line", "one pin reads an output", "one pin reads line 0"];
const NEAR: [Sort; 3] = ["a chance of 499 halvings", "a chance at the floor", "every chance is 1"];

impl Case for Control {
    fn second(&self) -> Seen {
        entries::control(&self.circuit, &self.ones, &self.zeros, &self.answer)
    }

    fn sorts(&self, seen: &mut Seen) -> Vec<Sort> {
        let chances = seen.lent.iter_mut().flat_map(|slice| slice.f64().clone()).collect::<Vec<_>>();
        [read(&self.circuit), near(&chances), selects::wired(&self.circuit)].concat()
    }

    /// In floating point numbers it is the same, and with 0 and 1 exchanged in every gate the buffers are exchanged.
    fn hold_more(cases: &[Self], seen: &[Seen]) {
        let floating: Vec<_> = cases.iter().map(|case| by(case, RIGHT)).collect();
        assert_eq!(first_difference(cases, seen, &floating), None, "in floating point numbers");
        let exchanged = |case: &Control| {
            let circuit = Circuit::read(&case.circuit).map_or(case.circuit.clone(), |_| dual(&case.circuit));
            Control { circuit, ones: case.zeros.clone(), zeros: case.ones.clone(), answer: case.answer.clone() }
        };
        let mut duals = library(&cases.iter().map(exchanged).collect::<Vec<_>>());
        duals.iter_mut().for_each(|seen| seen.lent.swap(0, 1));
        assert_eq!(first_difference(cases, seen, &duals), None, "with 0 and 1 exchanged");
    }
}

/// How the lines of a circuit are read.
fn read(bytes: &[u8]) -> Vec<Sort> {
    let circuit = Circuit::read(bytes).expect("sound");
    let readers = circuit.readers();
    let one_gate = |pins: &Vec<usize>| pins.iter().all(|gate| *gate == pins[0]);
    let hold = [
        readers.iter().any(|pins| !one_gate(pins)),
        readers.iter().any(|pins| pins.len() > 1 && one_gate(pins)),
        circuit.outputs().any(|line| readers[line].len() == 1),
        readers[0].len() == 1,
    ];
    READ.into_iter().zip(hold).filter(|(_, holds)| *holds).map(|(sort, _)| sort).collect()
}

fn near(chances: &[f64]) -> Vec<Sort> {
    let has = |halvings| chances.iter().any(|&one| one.to_bits() == chance(halvings).to_bits());
    let hold = [has(499), has(500), chances.iter().all(|one| one.to_bits() == chance(0).to_bits())];
    NEAR.into_iter().zip(hold).filter(|(_, holds)| *holds).map(|(sort, _)| sort).collect()
}

/// Lends junk of the right sizes.
fn lend(random: &mut Random, circuit: Vec<u8>) -> Control {
    let [ones, zeros] = [(); 2].map(|_| random.junk_f64(circuit.len() / 8));
    Control { circuit, ones, zeros, answer: random.junk(32) }
}

fn lend_each(seed: u64, circuits: impl IntoIterator<Item = Vec<u8>>) -> impl Iterator<Item = Control> {
    let mut random = Random::new(seed);
    circuits.into_iter().map(move |circuit| lend(&mut random, circuit))
}

/// A circuit of a few lines, with trees or not.
fn sound(random: &mut Random) -> Control {
    let circuit = random.pick(&[small, small, trees::few_inputs])(random);
    lend(random, circuit)
}

/// One thing or several are wrong.
fn damaged(random: &mut Random) -> Control {
    let mut case = sound(random);
    damage::several(random, &mut case, |random, case| match random.below(8) {
        0..=2 => damage::several(random, &mut case.circuit, damage::circuit),
        3..=4 => case.ones.resize(damage::size(random, case.ones.len()), 7.0),
        5..=6 => case.zeros.resize(damage::size(random, case.zeros.len()), 7.0),
        _ => case.answer.resize(random.pick(&[0, 31, 33, 64]), 7),
    });
    case
}

/// A circuit of up to 300 lines, in which the floor is reached sooner or later.
fn deep(random: &mut Random) -> Control {
    let (lines, inputs) = (30 + random.below(270), 1 + random.below(30));
    let circuit = circuit(random, lines, inputs);
    lend(random, circuit)
}

/// Sizes at which something changes, and beyond them.
fn bounds(random: &mut Random) -> Vec<Control> {
    let mut all = vec![lend(random, vec![])];
    for lines in [1, 2, 63, 64, 65, 66, 2047, 2048, 2049] {
        for inputs in [1, 2, 64, 65].into_iter().filter(|&inputs| inputs <= lines) {
            let circuit = circuit(random, lines, inputs);
            all.push(lend(random, circuit));
        }
    }
    all
}

/// Near the floor: a gate of each kind with pins that see some halvings each, or that all read one line.
fn near_the_floor(random: &mut Random) -> Control {
    let kind = BUFFER + random.below(SELECTOR.into()) as u8;
    let circuit = match random.below(4) {
        0 => at_the_end(kind, random.pick(&[0, 1, 248, 249, 250, 251, 497, 498, 499, 500, 501])),
        1 => chain(kind, random.pick(&[2, 8, 9, 10, 250, 499, 500, 501, 502, 503])),
        2 => every_kind([(); 3].map(|_| [(); 2].map(|_| random.pick(&[1, 2, 3, 248, 249, 250, 251, 252])))),
        _ => one_gate(kind, [(); 3].map(|_| [(); 2].map(|_| random.pick(&[0, 1, 2, 166, 167, 249, 250, 251, 300])))),
    };
    lend(random, circuit)
}

#[test]
fn sound_circuits() {
    let all: [&[Sort]; 3] = [&READ, &[NEAR[2]], &WIRED];
    assert_eq!(compare("control, sound", drawn(1, 60_000, sound)).with_sorts(&all).seen(), [0]);
}

#[test]
fn damaged_circuits() {
    let all: [&[Sort]; 2] = [&READ, &WIRED];
    assert_eq!(compare("control, damaged", drawn(2, 150_000, damaged)).with_sorts(&all).seen(), [0, 1, 2, 4, 5, 10]);
}

#[test]
fn deep_circuits() {
    assert_eq!(compare("control, deep", drawn(3, 3_000, deep)).with_sorts(&[&READ, &NEAR, &WIRED]).seen(), [0]);
    assert_eq!(compare("control, bounds", drawn(4, 10, bounds).flatten()).with_sorts(&[&NEAR]).seen(), [0, 1, 4]);
    assert_eq!(compare("control, near the floor", drawn(5, 2_000, near_the_floor)).with_sorts(&[&NEAR]).seen(), [0]);
}

/// Chances bit by bit: as numbers, a NaN is equal to nothing, and 0 is equal to -0.
fn bits(chances: &[f64]) -> Vec<u64> {
    chances.iter().map(|chance| chance.to_bits()).collect()
}

/// The chances of so many halvings each.
fn halved(halvings: impl Iterator<Item = u32>) -> Vec<f64> {
    halvings.map(chance).collect()
}

#[test]
fn counted_by_hand() {
    assert_eq!(compare("control, counted by hand", lend_each(6, every().into_iter().map(|by_hand| by_hand.circuit))).seen(), [0]);
    for by_hand in every() {
        let lines = by_hand.circuit.len() / 8;
        let (mut ones, mut zeros) = (vec![9.0; lines], vec![9.0; lines]);
        ullimaqsu::control(&by_hand.circuit, &mut ones, &mut zeros).expect("sound");
        let first = lines - by_hand.halvings.len();
        let expected = [0, 1].map(|value| bits(&halved(by_hand.halvings.iter().map(|line| line[value]))));
        assert_eq!([ones, zeros].map(|chances| bits(&chances[first..])), expected, "{}", by_hand.name);
    }
}

/// 2,048 lines of one kind, each of which reads the one below with all its pins: for both values each line has as many halvings as its kind makes of
/// those below, until it is at the floor and stays there.
#[test]
fn chains_of_every_kind() {
    let chains = (BUFFER..=SELECTOR).map(|kind| chain(kind, 2048));
    assert_eq!(compare("control, chains", lend_each(7, chains)).with_sorts(&[&NEAR[..2]]).seen(), [0]);
    let (mut ones, mut zeros) = (vec![9.0; 2048], vec![9.0; 2048]);
    ullimaqsu::control(&chain(circuits::AND, 2048), &mut ones, &mut zeros).expect("sound");
    assert_eq!(bits(&zeros), bits(&halved((0..2048).map(|line| line.min(500)))));
    assert_eq!(bits(&ones), bits(&halved((0..2048).map(|line| ((2u64 << line.min(20)) - 2).min(500) as u32))));
}

/// What document 001 draws, what else has its head lines named by hand, and trees of every kind.
#[test]
fn trees_and_head_lines() {
    let by_hand = placed::every().into_iter().map(|one| one.circuit);
    assert_eq!(compare("control, placed by hand", lend_each(8, by_hand)).with_sorts(&[&READ]).seen(), [0]);
    let tally = compare("control, trees of every kind", lend_each(9, trees::every_kind(6)));
    assert_eq!(tally.with_sorts(&[&READ[..1]]).seen(), [0]);
    let wide = drawn(10, 1_000, trees::many_inputs);
    assert_eq!(compare("control, wide trees", lend_each(11, wide)).with_sorts(&[&READ]).seen(), [0]);
}

/// The examples, records and texts, and s27 unfolded over eight steps.
#[test]
fn examples() {
    let records = ["a", "c17", "selector"].map(|name| fs::read(root().join("examples").join(name).join("circuit.rec")).expect("records"));
    let texts = ["c17", "adder16", "decoder4", "multiplier4", "parity16", "trees"].map(|name| {
        let text = fs::read(root().join("examples/bench").join(name).with_extension("bench")).expect("a text");
        second::bench(&text, 16_384).expect("sound")
    });
    let s27 = (1..=8).map(clocked::s27).map(|given| {
        let mut unfolded = vec![0; 8 * given.lines()];
        ullimaqsu::unfold(&given.circuit, &given.states, given.steps, &mut unfolded).expect("sound");
        unfolded
    });
    let all = records.into_iter().chain(texts).chain(s27);
    assert_eq!(compare("control, examples", lend_each(12, all)).with_sorts(&[&READ[..1], &NEAR[2..]]).seen(), [0]);
}

/// Every size of both buffers up to more than twice the right one.
#[test]
fn sizes_of_lent_memory() {
    let case = lend(&mut Random::new(13), circuits::example_a());
    let sizes = (0..12).flat_map(|ones| (0..12).map(move |zeros| (ones, zeros)));
    let cases = sizes.map(|(ones, zeros)| {
        let mut case = case.clone();
        case.ones.resize(ones, f64::NAN);
        case.zeros.resize(zeros, -0.0);
        case
    });
    assert_eq!(compare("control, every size", cases).seen(), [0, 10]);
}

/// What can be wrong, in the order in which it is looked for.
const DEFECTS: [Defect<Control>; 14] = defects![
    (10, |case| case.ones.push(0.0)),
    (10, |case| case.ones.clear()),
    (10, |case| case.zeros.push(0.0)),
    (10, |case| case.zeros.clear()),
];

#[test]
fn two_defects_at_once() {
    first_defect_is_told(&lend(&mut Random::new(14), selecting()), &DEFECTS);
}

/// Bits that no arithmetic would leave alone are left alone by every refusal.
#[test]
fn bits_stay_where_something_is_refused() {
    let infinity = 0x7ff << 52;
    let all = [infinity | 1, infinity | 1 << 63 | 1, infinity | 0x7_ffff_ffff_ffff, infinity | 1 << 51 | 5, u64::MAX, infinity, 1 << 63, 1];
    for (number, defect) in DEFECTS {
        for lent in all {
            let [ones, zeros] = [lent, !lent].map(|bits| vec![f64::from_bits(bits); 3]);
            let mut case = Control { circuit: selecting(), ones, zeros, answer: vec![7; 32] };
            defect(&mut case);
            let mut seen = library(std::slice::from_ref(&case)).remove(0);
            let left: Vec<_> = seen.lent.iter_mut().map(|slice| bits(slice.f64())).collect();
            assert_eq!((seen.returned, left), (number, vec![bits(&case.ones), bits(&case.zeros)]));
        }
    }
}

/// By hand, near the floor, at the bounds, and many small ones.
fn some_of_each_sort() -> Vec<Control> {
    let by_hand = lend_each(15, every().into_iter().map(|by_hand| by_hand.circuit));
    let floor = drawn(16, 60, near_the_floor).chain(drawn(17, 60, deep));
    drawn(18, 1_000, sound).chain(drawn(19, 4_000, damaged)).chain(by_hand).chain(floor).collect()
}

#[test]
fn wrong_programs() {
    let cases = some_of_each_sort();
    wrong_programs_are_seen(&cases, wrong::PROGRAMS);
    wrong_programs_are_seen(&cases, RULES.map(|(name, rule)| (name, move |case: &Control| by(case, Way { rule, ..RIGHT }))));
}

/// A floor that is put to pins too changes nothing: what a gate makes of it is at the floor either way. So no wrong program is of that sort.
#[test]
fn a_floor_at_pins_too() {
    let cases: Vec<_> = some_of_each_sort().into_iter().chain(drawn(20, 10, bounds).flatten()).collect();
    let way = Way { sees: |pin, chances| floored((RIGHT.sees)(pin, chances), 500), ..RIGHT };
    let said: Vec<_> = cases.iter().map(|case| by(case, way)).collect();
    assert_eq!(first_difference(&cases, &library(&cases), &said), None);
}

/// The safe call says what is wrong, and then writes nothing.
#[test]
fn bindings() {
    let (mut ones, mut zeros) = ([9.0; 3], [9.0; 3]);
    let mut said = |circuit: &[u8], ones_len: usize, zeros_len: usize| {
        let refusal = ullimaqsu::control(circuit, &mut ones[..ones_len], &mut zeros[..zeros_len]).unwrap_err();
        assert_eq!((ones, zeros), ([9.0; 3], [9.0; 3]));
        refusal.to_string()
    };
    assert_eq!(said(&selecting(), 2, 3), "refusal 10: a lent buffer has not its exact size");
    assert_eq!(said(&selecting(), 3, 0), "refusal 10: a lent buffer has not its exact size");
    assert_eq!(said(&selecting()[..8], 1, 1), "refusal 5: the circuit has no output");
    assert_eq!(said(&selecting()[16..], 1, 1), "refusal 2: line 0, first source (byte 2): 0 is not lower than the line");
    assert_eq!(ullimaqsu::control(&selecting(), &mut ones, &mut zeros), Ok(()));
    assert_eq!((ones, zeros), ([1.0, 1.0, 0.5], [1.0, 1.0, 0.5]));
}

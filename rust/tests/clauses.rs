//! The clause writer against the second program, which has an encoder of its own: every word and the answer.
#[path = "harness/defects.rs"]
mod defects;
#[path = "wrong/exchanged.rs"]
mod exchanged;
mod harness;

use cases::circuits::{circuit, record, selecting, small, INPUT, NOT, XOR};
use cases::faults::{self, some};
use cases::selects::{self, EVERY};
use cases::{damage, drawn, Random, Sort};
use defects::defects;
use exchanged::exchanged;
use harness::{compare, first_defect_is_told, wrong_programs_are_seen, Case, Clauses, Defect};
use second::circuit::Gate;
use second::clauses::{clauses_of, words, Clause};
use second::entries::{self, Seen};
use second::{Circuit, Fault};

impl Case for Clauses {
    fn second(&self) -> Seen {
        entries::clauses(&self.circuit, &self.fault, &self.words, &self.answer)
    }

    fn sorts(&self, _: &mut Seen) -> Vec<Sort> {
        selects::all(&self.circuit, &self.fault, &[])
    }
}

fn junk(random: &mut Random, len: usize) -> Vec<i32> {
    (0..len).map(|_| random.word() as i32).collect()
}

/// How many words an accepted case needs.
fn needed(circuit: &[u8], fault: &[u8]) -> usize {
    second::clauses(circuit, fault, usize::MAX).expect("sound").words.len()
}

/// Any fault of a circuit, and junk for exactly the words that are needed or for some more.
fn lend(random: &mut Random, circuit: Vec<u8>) -> Clauses {
    let fault = some(random, &circuit, 1);
    let len = needed(&circuit, &fault) + random.pick(&[0, 0, 1, 20]);
    let (words, answer) = (junk(random, len), random.junk(32));
    Clauses { circuit, fault, words, answer }
}

fn sound(random: &mut Random) -> Clauses {
    let circuit = small(random);
    lend(random, circuit)
}

/// One thing or several are wrong.
fn damaged(random: &mut Random) -> Clauses {
    let mut case = sound(random);
    let lines = case.circuit.len() / 8;
    let exact = needed(&case.circuit, &case.fault);
    damage::several(random, &mut case, |random, case| match random.below(8) {
        0..=1 => damage::several(random, &mut case.circuit, damage::circuit),
        2..=4 => damage::several(random, &mut case.fault, |random, bytes| damage::faults(random, bytes, lines)),
        5..=6 => case.words.resize(random.pick(&[0, 1, exact / 2, exact - 1, exact, exact + 1]), 7),
        _ => case.answer.resize(random.pick(&[0, 31, 33, 64]), 7),
    });
    case
}

/// The sizes at which something changes. Nothing needs more words than 2,048 lines of which all are XOR and outputs.
fn boundaries() -> Vec<Clauses> {
    let mut random = Random::new(3);
    let mut all = vec![];
    for (lines, wide) in [(1, 1), (2, 1), (2, 2), (64, 64), (100, 64), (2047, 64), (2048, 1), (2048, 64)] {
        for _ in 0..10 {
            let circuit = circuit(&mut random, lines, wide);
            let exact = lend(&mut random, circuit);
            let words = exact.words[..needed(&exact.circuit, &exact.fault) - 1].to_vec();
            all.extend([Clauses { words, ..exact.clone() }, exact]);
        }
    }
    let largest = (0..2048).flat_map(|line: usize| record(if line == 0 { INPUT } else { XOR }, true, line.saturating_sub(1), 0)).collect();
    all.push(lend(&mut random, largest));
    all
}

#[test]
fn sound_clauses() {
    assert_eq!(compare("clauses, sound", drawn(1, 50_000, sound)).with_sorts(&EVERY[..2]).seen(), [0]);
}

#[test]
fn damaged_clauses() {
    assert_eq!(compare("clauses, damaged", drawn(2, 50_000, damaged)).with_sorts(&EVERY[..2]).seen(), [0, 1, 2, 4, 5, 6, 7, 10, 11]);
}

#[test]
fn boundaries_and_largest() {
    assert_eq!(compare("clauses, boundaries", boundaries().into_iter()).with_sorts(&EVERY[..2]).seen(), [0, 11]);
}

/// What can be wrong, in the order in which it is looked for.
const DEFECTS: [Defect<Clauses>; 14] = defects![
    (6, |case| case.fault.extend([0; 8])),
    (7, |case| case.fault[..3].copy_from_slice(&[1, 0, 3])),
    (7, |case| case.fault[3] = 2),
    (11, |case| case.words.clear()),
];

#[test]
fn two_defects_at_once() {
    first_defect_is_told(&lend(&mut Random::new(5), selecting()), &DEFECTS);
}

/// Another list of clauses, and otherwise what the second program says.
fn by(case: &Clauses, change: impl Fn(&Circuit, Fault, &mut Vec<Clause>)) -> Seen {
    let mut seen = case.second();
    if seen.returned == 0 {
        let circuit = Circuit::read(&case.circuit).expect("sound");
        let fault = Fault::read_all(&circuit, &case.fault, 1).expect("sound")[0];
        let mut clauses = clauses_of(&circuit, fault);
        change(&circuit, fault, &mut clauses);
        let words = words(&clauses);
        seen.lent[0] = [&words[..], &case.words[words.len().min(case.words.len())..]].concat().into();
    }
    seen
}

/// Where the clauses of the first good selector stand, if there is one.
fn of_selectors(circuit: &Circuit, clauses: &[Clause]) -> Vec<usize> {
    let is_selector = |line: &usize| matches!(circuit.lines[*line].gate, Gate::Selector(..));
    let Some(line) = (0..circuit.lines.len()).find(is_selector) else { return vec![] };
    let own = 2 * line as i32 + 1;
    (0..clauses.len()).filter(|&place| clauses[place].len() == 3 && clauses[place][1].abs() == own).take(4).collect()
}

type Wrong = (&'static str, fn(&Clauses) -> Seen);

/// Programs that are wrong in one way each.
const WRONG: [Wrong; 12] = [
    ("leaves the words alone", |case| Seen { lent: vec![case.words.clone().into()], ..case.second() }),
    ("always writes the same list", |case| by(case, |_, _, clauses| *clauses = vec![vec![-3, -1], vec![3, 1]])),
    ("negates the stuck value", |case| {
        by(case, |circuit, _, clauses| {
            let stuck = 2 * circuit.lines.len() as i32 + 1;
            clauses.iter_mut().filter(|clause| clause.len() == 1 && clause[0].abs() == stuck).for_each(|clause| clause[0] = -clause[0]);
        })
    }),
    ("has one sign wrong", |case| by(case, |_, _, clauses| clauses[0][0] = -clauses[0][0])),
    ("has one sign of a selector wrong", |case| {
        by(case, |circuit, _, clauses| {
            let [_, _, _, last] = of_selectors(circuit, clauses)[..] else { return };
            clauses[last][2] = -clauses[last][2];
        })
    }),
    ("writes a selector's clauses of select 1 before those of select 0", |case| {
        by(case, |circuit, _, clauses| {
            if let [first, .., last] = of_selectors(circuit, clauses)[..] {
                clauses[first..=last].rotate_left(2);
            }
        })
    }),
    ("exchanges a selector's sources", |case| match case.second() {
        refused @ Seen { returned: 1.., .. } => refused,
        _ => Clauses { circuit: exchanged(&case.circuit), ..case.clone() }.second(),
    }),
    ("lets faulty inputs be free", |case| {
        by(case, |circuit, _, clauses| {
            let free = |line: i32| [[-(2 * line + 2), 2 * line + 1], [2 * line + 2, -(2 * line + 1)]];
            let free: Vec<_> = circuit.inputs().flat_map(|line| free(line as i32)).collect();
            clauses.retain(|clause| !free.iter().any(|free| clause == free));
        })
    }),
    ("takes a pin fault for a fault of the line", |case| {
        let mut line = case.clone();
        if case.second().returned == 0 {
            line.fault[2] = 0;
        }
        Seen { lent: line.second().lent, ..case.second() }
    }),
    ("asks for a difference at the last output", |case| {
        by(case, |_, _, clauses| {
            let all = clauses.last_mut().expect("the clause of all differences");
            *all = all.split_off(all.len() - 1);
        })
    }),
    ("clears the words after the last clause", |case| {
        let mut seen = case.second();
        if seen.returned == 0 {
            let written = needed(&case.circuit, &case.fault);
            seen.lent[0].i32()[written..].fill(0);
        }
        seen
    }),
    ("wants one word more than it needs", |case| {
        let seen = case.second();
        if seen.returned != 0 || case.words.len() > needed(&case.circuit, &case.fault) {
            return seen;
        }
        Clauses { words: case.words[1..].to_vec(), ..case.clone() }.second()
    }),
];

#[test]
fn wrong_programs() {
    let cases: Vec<_> = drawn(6, 3_000, sound).chain(drawn(7, 3_000, damaged)).collect();
    wrong_programs_are_seen(&cases, WRONG);
}

/// The marked example, one word short too.
#[test]
fn bindings() {
    let not = [record(INPUT, false, 0, 0), record(NOT, true, 0, 0)].concat();
    let fault = faults::record(1, 0, false);
    let mut words = [77; 39];
    let written = ullimaqsu::clauses(&not, &fault, &mut words).expect("sound");
    assert_eq!(written, ullimaqsu::Clauses { words: 38, clauses: 12, variables: 6 });
    assert_eq!((&words[..8], &words[36..]), (&[-3, -1, 0, 3, 1, 0, -5, 0][..], &[6, 0, 77][..]));
    let refused = ullimaqsu::clauses(&not, &fault, &mut words[..37]).unwrap_err();
    assert_eq!(refused, ullimaqsu::Refusal::new(11, 38));
}

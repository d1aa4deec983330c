//! Cases of the entries that search for a test of one fault: drawn for [`Search`], whose parameters both have.
use crate::budgets::around;
use crate::harness::{library, Case, Search};
use cases::circuits::{circuit, parity};
use cases::faults::{self, some};
use cases::{damage, Random, Tally};
use second::entries::Seen;
use second::values::byte;
use second::{Circuit, Entry, Fault, Pattern};

/// Verdicts are counted with these numbers.
pub const TEST: u32 = 100;
pub const REDUNDANT: u32 = 101;
pub const GIVEN_UP: u32 = 102;

/// The number of the verdict, or of the refusal.
pub fn verdict_or_refusal(seen: &Seen) -> u32 {
    if seen.returned == 0 {
        TEST + u32::from(seen.answer[0])
    } else {
        seen.returned
    }
}

/// The number of nodes in an answer.
pub fn nodes(seen: &Seen) -> u64 {
    u64::from_le_bytes(seen.answer[8..16].try_into().expect("eight bytes"))
}

/// A case of such an entry.
pub trait OneFault: Case {
    /// Its circuit and its fault.
    fn given(&self) -> (&[u8], &[u8]);

    /// The circuit and the fault of an accepted case.
    fn parts(&self) -> (Circuit, Fault) {
        let (circuit, fault) = self.given();
        read(circuit, fault)
    }
}

/// What bytes that are accepted stand for.
fn read(circuit: &[u8], fault: &[u8]) -> (Circuit, Fault) {
    let circuit = Circuit::read(circuit).expect("sound");
    let fault = Fault::read_all(&circuit, fault, 1).expect("sound")[0];
    (circuit, fault)
}

/// This fault of a circuit, no end to the budget, and junk of the right sizes.
pub fn lend_for(random: &mut Random, circuit: Vec<u8>, fault: Vec<u8>) -> Search {
    let (test, work, answer) = (random.junk(faults::inputs(&circuit)), random.junk(circuit.len() / 4), random.junk(32));
    Search { circuit, fault, budget: u64::MAX, test, work, answer }
}

/// The same with any fault.
pub fn lend(random: &mut Random, circuit: Vec<u8>) -> Search {
    let fault = some(random, &circuit, 1);
    lend_for(random, circuit, fault)
}

/// With a budget around the number of nodes that are needed.
pub fn with_budget(random: &mut Random, case: Search, needed: impl Fn(&Circuit, Fault) -> u64) -> Search {
    let (circuit, fault) = read(&case.circuit, &case.fault);
    Search { budget: around(random, needed(&circuit, fault)), ..case }
}

/// 60 to 64 inputs, and a small budget.
pub fn many_inputs(random: &mut Random) -> Search {
    let inputs = 60 + random.below(5);
    let lines = inputs + random.below(200);
    let circuit = circuit(random, lines, inputs);
    let budget = random.pick(&[0, 1, 2, 63, 64, 65, 66, 67, 200]);
    Search { budget, ..lend(random, circuit) }
}

/// The search over patterns goes down to the last input before it knows anything.
pub fn parity_stuck_at_0() -> Search {
    Search { fault: faults::record(126, 0, false).to_vec(), ..lend(&mut Random::new(0), parity()) }
}

/// 2,048 lines and 64 inputs.
pub fn largest(random: &mut Random) -> Search {
    let circuit = circuit(random, 2048, 64);
    Search { budget: 100, ..lend(random, circuit) }
}

/// One thing or several are wrong with a case.
pub fn damaged(random: &mut Random, mut case: Search) -> Search {
    let lines = case.circuit.len() / 8;
    damage::several(random, &mut case, |random, case| match random.below(8) {
        0..=1 => damage::several(random, &mut case.circuit, damage::circuit),
        2..=4 => damage::several(random, &mut case.fault, |random, bytes| damage::faults(random, bytes, lines)),
        5 => case.test.resize(damage::size(random, case.test.len()), 7),
        6 => case.work.resize(damage::size(random, case.work.len()), 7),
        _ => case.answer.resize(random.pick(&[0, 31, 33, 64]), 7),
    });
    // a damaged circuit may have many inputs: no long searches
    Search { budget: case.budget.min(300), ..case }
}

/// Every complete pattern of so many inputs.
fn vectors(inputs: usize) -> impl Iterator<Item = Pattern> {
    (0..1 << inputs).map(move |bits: usize| (0..inputs).map(|input| Some(bits >> input & 1 == 1)).collect())
}

/// Without a budget, there is a test exactly if some vector detects the fault; then every filling of it does. Of the lines that are decided there
/// are as many as this says, d, and there are no more than 2^(d+1) - 1 nodes.
pub fn hold_to_all_vectors<C: OneFault>(cases: &[C], decided: impl Fn(&Circuit, Fault) -> usize) -> Tally {
    let (mut found, mut tally) = ([0; 2], Tally::default());
    for (case, mut seen) in cases.iter().zip(library(cases)) {
        tally.count_sorts(case.sorts(&mut seen));
        let (circuit, fault) = case.parts();
        let inputs = circuit.inputs().count();
        let detecting: Vec<_> = vectors(inputs).filter(|vector| circuit.entry(vector, fault) == Entry::Fail).collect();
        assert_eq!(verdict_or_refusal(&seen), if detecting.is_empty() { REDUNDANT } else { TEST }, "{case:?}");
        if !detecting.is_empty() {
            let test = seen.lent[0].u8();
            let fills = |vector: &Pattern| vector.iter().zip(&*test).all(|(value, &test)| test == 2 || byte(value) == test);
            assert!(vectors(inputs).filter(fills).all(|vector| detecting.contains(&vector)), "{case:?}");
        }
        assert!((1..2 << decided(&circuit, fault)).contains(&nodes(&seen)), "{case:?}");
        found[usize::from(seen.answer[0])] += 1;
    }
    assert!(found.iter().all(|&times| times > 300), "{found:?}");
    tally
}

/// What can be wrong, in the order in which it is looked for.
macro_rules! one_fault_defects {
    () => {
        $crate::defects::defects![
            (6, |case| case.fault.extend([0; 8])),
            (7, |case| case.fault[..3].copy_from_slice(&[1, 0, 3])),
            (7, |case| case.fault[3] = 2),
            (10, |case| case.test.push(0)),
            (10, |case| case.work.clear()),
        ]
    };
}
pub(crate) use one_fault_defects;

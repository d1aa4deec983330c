//! The second program's chances: counted by hand, and as the best of all ways to set a line, which know nothing of what gates do with chances.
mod vectors;

use cases::{circuits, control, drawn, placed, trees, Random};
use second::circuit::{Circuit, Gate};
use second::control::{chance, Halvings, FLOOR};
use second::search_heads::{Place, Placed};
use std::collections::BTreeSet;
use vectors::every_pattern;

fn read(bytes: &[u8]) -> Circuit {
    Circuit::read(bytes).expect("sound")
}

#[test]
fn counted_by_hand() {
    for by_hand in control::every() {
        let halvings: Vec<_> = read(&by_hand.circuit).halvings().iter().map(|halvings| [halvings.one, halvings.zero]).collect();
        let last = halvings.len() - by_hand.halvings.len();
        assert_eq!(halvings[last..], by_hand.halvings, "{}", by_hand.name);
    }
}

/// The floor is at 2^-500: halved so often, 1 is that. The others are halved less.
#[test]
fn chances_are_powers_of_one_half() {
    let mut halved = 1.0f64;
    for halvings in 0..=FLOOR {
        assert_eq!(chance(halvings).to_bits(), halved.to_bits(), "{halvings}");
        halved *= 0.5;
    }
    assert_eq!(FLOOR, 500);
}

/// How many halvings each way to set a line to a value takes. A way sets some pins of its gate, of a selector the select among them, so that
/// the gate then has the value whatever stands at the others; and for each of these pins it has a way to set the line that the pin reads, with
/// one halving more if other pins read it too.
fn ways(circuit: &Circuit, line: usize, value: bool) -> BTreeSet<u32> {
    let gate = circuit.lines[line].gate;
    if gate == Gate::Input {
        return BTreeSet::from([0]);
    }
    let (sources, readers) = (gate.sources(), circuit.readers());
    let mut all = BTreeSet::new();
    for pins in every_pattern(sources.len()) {
        let is_chosen = !matches!(gate, Gate::Selector(..)) || pins[2].is_some();
        if is_chosen && gate.over(|pin, _| pins[pin - 1]).value() == Some(value) {
            let set = sources.iter().zip(&pins).filter_map(|(&source, pin)| Some((source, (*pin)?)));
            let each = set.map(|(source, value)| (ways(circuit, source, value), u32::from(readers[source].len() > 1)));
            all.extend(each.fold(BTreeSet::from([0]), |before, (ways, more)| {
                before.iter().flat_map(|halvings| ways.iter().map(move |way| halvings + way + more)).collect()
            }));
        }
    }
    all
}

/// A circuit of a few lines, with trees or not.
fn tiny(random: &mut Random) -> Vec<u8> {
    if random.once_in(3) {
        let (inputs, in_trees, above) = (1 + random.below(4), random.below(4), random.below(4));
        return trees::circuit(random, inputs, in_trees, above);
    }
    let lines = 1 + random.below(8);
    let inputs = 1 + random.below(lines.min(4));
    circuits::circuit(random, lines, inputs)
}

/// The chance is that of the way with the fewest halvings: no way is better, and there is one that is as good.
#[test]
fn chances_are_those_of_the_best_way() {
    let (mut kinds, mut several, mut most) = (BTreeSet::new(), 0, 0);
    for bytes in drawn(1, 2_000, tiny).chain([circuits::selecting(), circuits::always_0()]) {
        let circuit = read(&bytes);
        for (line, halvings) in circuit.halvings().into_iter().enumerate() {
            let both = [true, false].map(|value| ways(&circuit, line, value));
            let fewest = both.each_ref().map(|ways| *ways.first().expect("a gate can have either value"));
            assert_eq!([halvings.one, halvings.zero], fewest.map(|halvings| halvings.min(FLOOR)), "line {line} of {circuit:?}");
            kinds.insert(bytes[8 * line]);
            several += usize::from(both.iter().any(|ways| ways.len() > 1));
            most = most.max(halvings.one).max(halvings.zero);
        }
    }
    assert_eq!(kinds.len(), 10);
    assert!(several > 2_000 && most > 20, "{several} lines with ways that differ, {most} halvings");
}

/// What no branch reaches can be set to either value for certain, the head lines too.
#[test]
fn free_lines() {
    let mut seen = [0; 2];
    let by_hand = placed::every().into_iter().map(|one| one.circuit);
    for bytes in drawn(2, 3_000, trees::few_inputs).chain(drawn(3, 300, trees::many_inputs)).chain(by_hand) {
        let circuit = read(&bytes);
        let halvings = circuit.halvings();
        for (line, place) in Placed::new(&circuit).places.into_iter().enumerate() {
            let certain = halvings[line] == Halvings { one: 0, zero: 0 };
            assert!(certain || place == Place::Bound, "line {line} of {circuit:?}");
            seen[usize::from(certain)] += 1;
        }
    }
    assert!(seen.iter().all(|&times| times > 5_000), "{seen:?}");
}

/// With 0 and 1 exchanged in every gate the chances are exchanged.
#[test]
fn dual_circuits() {
    for bytes in drawn(4, 3_000, circuits::small) {
        let exchanged = |halvings: Halvings| Halvings { one: halvings.zero, zero: halvings.one };
        let dual: Vec<_> = read(&control::dual(&bytes)).halvings().into_iter().map(exchanged).collect();
        assert_eq!(read(&bytes).halvings(), dual, "{bytes:?}");
    }
}

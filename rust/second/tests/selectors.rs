//! The second program on selectors: what is marked by hand, and what every gate makes of all fillings of its pins.
use cases::marked::selectors;
use second::circuit::Gate;
use second::{Dictionary, Value, Written};

#[test]
fn marked() {
    for marked in selectors() {
        let (circuit, fault, lines) = (&marked.circuit, &marked.fault, marked.circuit.len() / 8);
        let table = marked.table();
        let Dictionary { table: made, .. } = second::dictionary(circuit, fault, &marked.patterns(), table.len(), 2 * lines).expect("sound");
        assert_eq!(made, table, "{}", marked.name);

        let inputs = second::check(circuit).expect("sound").inputs;
        let found = second::search(circuit, fault, u64::MAX, inputs, 2 * lines).expect("sound");
        let test = found.test.unwrap_or_default();
        assert_eq!((found.outcome as u8, found.nodes, test), (marked.outcome, marked.nodes, marked.test()), "{}", marked.name);

        let Written { words, clauses, .. } = second::clauses(circuit, fault, 100).expect("sound");
        assert_eq!((words, clauses), (marked.words(), marked.clause_count()), "{}", marked.name);
    }
}

/// A gate of each kind but an input, over its pins, which it may not all have.
fn gates<S: Copy>([a, b, select]: [S; 3]) -> [Gate<S>; 9] {
    let two = [Gate::And(a, b), Gate::Nand(a, b), Gate::Or(a, b), Gate::Nor(a, b), Gate::Xor(a, b), Gate::Xnor(a, b)];
    let [and, nand, or, nor, xor, xnor] = two;
    [Gate::Buffer(a), Gate::Not(a), and, nand, or, nor, xor, xnor, Gate::Selector(a, b, select)]
}

/// What a gate of each kind, in the same order, makes of known values.
fn truths([a, b, select]: [bool; 3]) -> [bool; 9] {
    [a, !a, a && b, !(a && b), a || b, !(a || b), a != b, a == b, if select { b } else { a }]
}

/// A value is known exactly if all fillings of the X's at the pins give it.
#[test]
fn values_are_what_all_fillings_give() {
    const VALUES: [Value; 3] = [Some(false), Some(true), None];
    for number in 0..27 {
        let pins = [number % 3, number / 3 % 3, number / 9].map(|value| VALUES[value]);
        let fills = |filling: &[bool; 3]| pins.iter().zip(filling).all(|(pin, &value)| *pin != Some(!value));
        let fillings: Vec<_> = (0..8).map(|bits| [0, 1, 2].map(|pin| bits >> pin & 1 == 1)).filter(fills).map(truths).collect();
        for (kind, gate) in gates(pins).into_iter().enumerate() {
            let same = fillings.iter().all(|truths| truths[kind] == fillings[0][kind]);
            assert_eq!(gate.value(), same.then_some(fillings[0][kind]), "{gate:?}");
        }
    }
}

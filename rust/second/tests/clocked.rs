//! The second program's clocked circuits: what the unfolded circuit makes of a pattern, what complete vectors do, and circuits whose runs are known.
mod vectors;

use cases::clocked::{self, counter, named, pairs, shift_register, small, stuck, wired, STUCK, WIRED};
use cases::{drawn, faults, Random, Tally};
use second::circuit::Gate;
use second::pattern::read_all;
use second::values::value;
use second::{Circuit, Clocked, Entry, Fault, Site, Value};
use std::collections::BTreeSet;
use vectors::fillings;

fn read(clocked: &clocked::Clocked) -> Clocked {
    Clocked::read(&clocked.circuit, &clocked.states, clocked.steps).expect("sound")
}

/// The unfolded circuit is accepted, with as many lines and inputs as there are over all steps, its outputs are what is compared, and its values
/// are those of the run.
#[test]
fn unfolded_circuits_do_what_the_clocked_ones_do() {
    let mut random = Random::new(1);
    let mut tally = Tally::default();
    for bytes in drawn(2, 5_000, small).chain(named().into_iter().map(|(_, clocked)| clocked)) {
        let clocked = read(&bytes);
        let unfolded = clocked.unfolded();
        assert_eq!(Circuit::read(&unfolded.write()), Ok(unfolded.clone()));
        let counts = unfolded.counts();
        assert_eq!((counts.lines, counts.inputs), (bytes.lines(), bytes.inputs()));
        assert_eq!((clocked.lines(), clocked.inputs()), (bytes.lines(), bytes.inputs()));
        let lines: Vec<usize> = places(&clocked).into_iter().map(|(step, line)| step * bytes.each() + line).collect();
        assert_eq!(unfolded.outputs().collect::<BTreeSet<_>>(), lines.iter().copied().collect());
        for pattern in read_all(&bytes.patterns(&mut random, 5), clocked.inputs()).expect("sound") {
            let (run, values) = (clocked.run(&pattern, None), unfolded.values(&pattern, None));
            assert_eq!(run.concat(), values, "{bytes:?} {pattern:?}");
            assert_eq!(clocked.compared(&run), lines.iter().map(|&line| values[line]).collect::<Vec<_>>());
        }
        tally.count(bytes.steps as u32);
        tally.count_sorts(wired(&bytes.circuit, &bytes.states));
    }
    assert_eq!(tally.with_sorts(&[&WIRED]).seen(), [1, 2, 3, 4, 5, 6, 7, 8]);
}

/// The values of the inputs of one step, in line order, out of those of all steps.
fn input(clocked: &Clocked, vector: &[bool], step: usize, line: usize) -> bool {
    let is_state = |line: &usize| clocked.states.iter().any(|state| state.line == *line);
    let all: Vec<usize> = clocked.circuit.inputs().collect();
    let free: Vec<usize> = all.iter().copied().filter(|line| !is_state(line)).collect();
    match step {
        0 => vector[all.iter().position(|&input| input == line).expect("an input")],
        _ => vector[all.len() + (step - 1) * free.len() + free.iter().position(|&input| input == line).expect("no state line")],
    }
}

/// A line's value in a step, by asking for those that it reads; of a state line, for its data line's one step earlier.
fn truth(clocked: &Clocked, vector: &[bool], fault: Option<Fault>, step: usize, line: usize) -> bool {
    let stuck = |site| fault.filter(|fault| fault.line == line && fault.site == site).map(|fault| fault.stuck);
    let pin = |pin, source| stuck(Site::Pin(pin)).unwrap_or_else(|| truth(clocked, vector, fault, step, source));
    let data = clocked.states.iter().find(|state| state.line == line && step > 0).map(|state| state.data);
    stuck(Site::Line).unwrap_or_else(|| match (clocked.circuit.lines[line].gate, data) {
        (Gate::Input, Some(data)) => truth(clocked, vector, fault, step - 1, data),
        (Gate::Input, None) => input(clocked, vector, step, line),
        (gate, _) => gate.over(|number, source| Some(pin(number, source))).value().expect("known at known pins"),
    })
}

/// Where a tester compares: the step and the line of each output, and of the data lines in the last step.
fn places(clocked: &Clocked) -> Vec<(usize, usize)> {
    let outputs = (0..clocked.steps).flat_map(|step| clocked.circuit.outputs().map(move |line| (step, line)));
    outputs.chain(clocked.states.iter().map(|state| (clocked.steps - 1, state.data))).collect()
}

/// Few lines and values, so that all fillings can be gone through.
fn tiny(random: &mut Random) -> clocked::Clocked {
    loop {
        let lines = 1 + random.below(7);
        let inputs = 1 + random.below(lines.min(4));
        let (states, steps) = (random.below(inputs + 1), 1 + random.below(4) as u64);
        let clocked = clocked::clocked(random, lines, inputs, states, steps);
        if clocked.inputs() <= 7 {
            return clocked;
        }
    }
}

/// With the fault in every step: where an entry is fail, one and the same compared place differs under every filling; where it is pass, none does
/// under any. Without X nothing is unknown.
#[test]
fn entries_speak_of_all_fillings() {
    let mut seen = [0; 3];
    let mut tally = Tally::default();
    let mut random = Random::new(3);
    for bytes in drawn(4, 1_000, tiny) {
        let clocked = read(&bytes);
        let every = faults::every(&bytes.circuit).concat();
        tally.count_sorts([wired(&bytes.circuit, &bytes.states), stuck(&bytes.states, &every)].concat());
        let places = places(&clocked);
        for pattern in read_all(&bytes.patterns(&mut random, 3), clocked.inputs()).expect("sound") {
            let good = clocked.run(&pattern, None);
            let fillings = fillings(&pattern);
            let known: Vec<_> = places.iter().copied().filter(|&(step, line)| good[step][line].is_some()).collect();
            for fault in Fault::read_all(&clocked.circuit, &every, 256).expect("sound") {
                let differs = |vector: &[bool], (step, line)| {
                    truth(&clocked, vector, None, step, line) != truth(&clocked, vector, Some(fault), step, line)
                };
                let entry = clocked.entry_of(&good, &clocked.run(&pattern, Some(fault)));
                match entry {
                    Entry::Fail => assert!(known.iter().any(|&at| fillings.iter().all(|vector| differs(vector, at))), "{bytes:?}"),
                    Entry::Pass => assert!(known.iter().all(|&at| !fillings.iter().any(|vector| differs(vector, at))), "{bytes:?}"),
                    Entry::Unknown => assert!(fillings.len() > 1, "{bytes:?}"),
                }
                seen[entry as usize] += 1;
            }
        }
    }
    assert!(seen.iter().all(|&times| times > 100), "{seen:?}");
    tally.with_sorts(&[&WIRED, &STUCK]);
}

/// The counter counts the steps in which line 0 is 1, from where its state begins.
#[test]
fn counters_count() {
    let bits = 3;
    for word in 0..1usize << (bits + 8) {
        let clocked = read(&counter(bits, 8));
        let bit = |place: usize| Some(word >> place & 1 == 1);
        // line 0, the state from its lowest bit on, and line 0 of each later step
        let pattern: Vec<Value> = [0].into_iter().chain(8..8 + bits).chain(1..8).map(bit).collect();
        let mut count = word >> 8;
        for (step, values) in clocked.run(&pattern, None).into_iter().enumerate() {
            let shown = (1..=bits).rev().fold(0, |shown, line| 2 * shown + usize::from(values[line].expect("known")));
            assert_eq!(shown, count % (1 << bits), "step {step} of {word:b}");
            count += word >> step & 1;
        }
    }
}

/// After some clocks a line of the shift register shows what stood so many lines, or else steps, before.
#[test]
fn shift_registers_shift() {
    let mut random = Random::new(5);
    for (length, steps) in (1..=5).flat_map(|length| (1..=8).map(move |steps| (length, steps))) {
        let bytes = shift_register(length, steps as u64);
        assert_eq!(pairs(&bytes.states).len(), length);
        let pattern: Vec<Value> = bytes.patterns(&mut random, 1).into_iter().map(|byte| value(byte).expect("a value")).collect();
        // what has stood at line 0, from the last state line's first value on
        let stream: Vec<Value> = (0..=length).rev().chain(length + 1..length + steps).map(|place| pattern[place]).collect();
        for (step, values) in read(&bytes).run(&pattern, None).into_iter().enumerate() {
            assert!((0..=length).all(|line| values[line] == stream[length + step - line]));
        }
    }
}

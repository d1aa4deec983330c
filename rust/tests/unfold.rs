//! The unfolding of clocked circuits against the second program, byte by byte; and what is unfolded against the library itself: its check accepts
//! it, and its simulation gives the values that the second program's clocked circuit runs through.
#[path = "wrong/answered.rs"]
mod answered;
#[path = "wrong/but_for.rs"]
mod but_for;
#[path = "wrong/changed.rs"]
mod changed;
#[path = "harness/defects.rs"]
mod defects;
mod harness;
#[path = "wrong/clocked.rs"]
mod readers;
#[path = "harness/simulated.rs"]
mod simulated;
#[path = "harness/stepped.rs"]
mod stepped;
#[path = "wrong/unfold.rs"]
mod wrong;

use cases::circuits::{record, BUFFER, INPUT};
use cases::clocked::{self, counter, input_bounds, line_bounds, named, small, state, wired, Clocked, WIRED};
use cases::{damage, drawn, selects, Random, Sort};
use harness::{compare, first_defect_is_told, library, wrong_programs_are_seen, Case, Defect, Unfold};
use second::entries::{self, Seen};
use second::pattern::read_all;
use second::values::byte;
use second::{check, Slice};
use simulated::simulated;
use stepped::{selecting_twice, stepped, stepped_defects, Stepped};

stepped!(Unfold);

impl Case for Unfold {
    fn second(&self) -> Seen {
        entries::unfold(&self.circuit, &self.states, self.steps, &self.unfolded, &self.answer)
    }

    fn sorts(&self, _seen: &mut Seen) -> Vec<Sort> {
        [wired(&self.circuit, &self.states), selects::wired(&self.circuit)].concat()
    }

    /// The check accepts what is unfolded, with as many inputs as its patterns have values; and under a pattern its lines have the values that the
    /// clocked circuit runs through.
    fn hold_more(cases: &[Self], library: &[Seen]) {
        let mut random = Random::new(cases.len() as u64);
        for (case, seen) in cases.iter().zip(library).filter(|(_, seen)| seen.returned == 0) {
            let Slice::U8(unfolded) = &seen.lent[0] else { panic!("records are bytes") };
            let clocked = case.clocked();
            let counts = ullimaqsu::check(unfolded).expect("accepted");
            assert_eq!((counts.lines, counts.inputs), (clocked.lines() as u64, clocked.inputs() as u64), "{case:?}");
            let pattern = clocked.patterns(&mut random, 1);
            let run = read(&clocked).run(&read_all(&pattern, clocked.inputs()).expect("sound")[0], None);
            assert_eq!(simulated(unfolded, &pattern), run.iter().flatten().map(byte).collect::<Vec<_>>(), "{case:?}");
        }
    }
}

fn read(clocked: &Clocked) -> second::Clocked {
    second::Clocked::read(&clocked.circuit, &clocked.states, clocked.steps).expect("sound")
}

/// Lends junk of the right sizes.
fn lend(random: &mut Random, clocked: Clocked) -> Unfold {
    let (unfolded, answer) = (random.junk(8 * clocked.lines()), random.junk(32));
    let Clocked { circuit, states, steps } = clocked;
    Unfold { circuit, states, steps, unfolded, answer }
}

fn sound(random: &mut Random) -> Unfold {
    let clocked = small(random);
    lend(random, clocked)
}

/// One thing or several are wrong. Where it is the number of steps, the buffer may go with it.
fn damaged(random: &mut Random) -> Unfold {
    let mut case = sound(random);
    let lines = case.circuit.len() / 8;
    damage::several(random, &mut case, |random, case| match random.below(12) {
        0..=1 => damage::several(random, &mut case.circuit, damage::circuit),
        2..=5 => damage::several(random, &mut case.states, |random, bytes| damage::states(random, bytes, lines)),
        6..=8 => {
            case.steps = damage::steps(random, case.steps);
            if case.steps <= 9 && random.once_in(2) {
                case.unfolded.resize(case.steps as usize * case.circuit.len(), 7);
            }
        }
        9..=10 => case.unfolded.resize(damage::size(random, case.unfolded.len()), 7),
        _ => case.answer.resize(random.pick(&[0, 31, 33, 64]), 7),
    });
    case
}

/// Sizes at and beyond the bounds.
fn bounds(random: &mut Random) -> Vec<Unfold> {
    let all = [input_bounds(random), line_bounds(random)].concat();
    all.into_iter().map(|clocked| lend(random, clocked)).collect()
}

#[test]
fn sound_unfoldings() {
    let cases = drawn(1, 40_000, sound);
    assert_eq!(compare("unfold, sound", cases).with_sorts(&[&WIRED, &selects::WIRED]).seen(), [0]);
}

#[test]
fn damaged_unfoldings() {
    let cases = drawn(2, 100_000, damaged);
    assert_eq!(compare("unfold, damaged", cases).with_sorts(&[&WIRED, &selects::WIRED]).seen(), [0, 1, 2, 4, 5, 10, 18, 19, 21]);
}

#[test]
fn named_circuits() {
    let mut random = Random::new(3);
    let cases = named().into_iter().map(|(_, clocked)| lend(&mut random, clocked));
    assert_eq!(compare("unfold, named circuits", cases).seen(), [0]);
}

/// 64 inputs and 2,048 lines are taken, one more is not; and of one step these are the circuit's own.
#[test]
fn sizes_after_unfolding() {
    assert_eq!(compare("unfold, bounds", drawn(4, 20, bounds).flatten()).seen(), [0, 1, 4, 19, 21]);
    let mut random = Random::new(5);
    let mut returned = |clocked| library(&[lend(&mut random, clocked)])[0].returned;
    let mut drawn = Random::new(6);
    // eight steps of eight free inputs are 64, a state line more is one more
    assert_eq!(returned(clocked::clocked(&mut drawn, 20, 8, 0, 8)), 0);
    assert_eq!(returned(clocked::clocked(&mut drawn, 20, 9, 1, 8)), 19);
    assert_eq!(returned(clocked::clocked(&mut drawn, 256, 6, 3, 8)), 0);
    assert_eq!(returned(clocked::clocked(&mut drawn, 257, 6, 3, 8)), 19);
    assert_eq!(returned(clocked::clocked(&mut drawn, 683, 6, 3, 3)), 19, "2,049 lines");
    assert_eq!(returned(clocked::clocked(&mut drawn, 682, 6, 3, 3)), 0, "2,046 lines");
}

/// The counter of two bits over two steps, by hand: lines 0 to 6 of step 1 as they are, and of step 2, from line 7 on, the state lines as buffers of
/// the data lines 3 and 5, whose own in step 2 are outputs already.
#[test]
fn counter_by_hand() {
    let clocked = counter(2, 2);
    let expected = [
        &clocked.circuit[..],
        &record(INPUT, false, 0, 0),
        &record(BUFFER, false, 3, 0),
        &record(BUFFER, false, 5, 0),
        &[7, 1, 8, 0, 7, 0, 0, 0],
        &[3, 0, 8, 0, 7, 0, 0, 0],
        &[7, 1, 9, 0, 11, 0, 0, 0],
        &[3, 0, 9, 0, 11, 0, 0, 0],
    ];
    let mut unfolded = [9; 112];
    assert_eq!(ullimaqsu::unfold(&clocked.circuit, &clocked.states, 2, &mut unfolded), Ok(14));
    assert_eq!(unfolded[..], expected.concat());
}

/// One step is the circuit itself, with its data lines for outputs too.
#[test]
fn one_step() {
    let one = |clocked: Clocked| Clocked { steps: 1, ..clocked };
    let cases: Vec<Clocked> = drawn(7, 5_000, small).chain(named().into_iter().map(|(_, clocked)| clocked)).map(one).collect();
    let mut with_states = 0;
    for Clocked { circuit, states, .. } in cases {
        let mut unfolded = vec![9; circuit.len()];
        assert_eq!(ullimaqsu::unfold(&circuit, &states, 1, &mut unfolded), Ok(circuit.len() as u64 / 8));
        let mut expected = circuit.clone();
        clocked::pairs(&states).into_iter().for_each(|[data, _]| expected[8 * data + 1] = 1);
        assert_eq!(unfolded, expected);
        assert!(!states.is_empty() || unfolded == circuit, "without states the circuit itself");
        with_states += usize::from(unfolded != circuit);
    }
    assert!(with_states > 1_000, "{with_states}");
}

/// Every size of the buffer up to more than twice the right one.
#[test]
fn sizes_of_lent_memory() {
    let case = lend(&mut Random::new(8), counter(1, 3));
    let cases = (0..220).map(|len| {
        let mut case = case.clone();
        case.unfolded.resize(len, 7);
        case
    });
    assert_eq!(compare("unfold, every size", cases).seen(), [0, 10]);
}

/// What can be wrong, in the order in which it is looked for.
const DEFECTS: [Defect<Unfold>; 21] = stepped_defects![(10, |case| case.unfolded.push(0)), (10, |case| case.unfolded.truncate(24))];

#[test]
fn two_defects_at_once() {
    first_defect_is_told(&lend(&mut Random::new(9), selecting_twice()), &DEFECTS);
}

/// Nine steps with room for them, and everything else right.
fn nine_steps(random: &mut Random) -> Vec<Unfold> {
    let nine = |clocked: Clocked| Clocked { steps: 9, ..clocked };
    named().into_iter().map(|(_, clocked)| lend(random, nine(clocked))).collect()
}

#[test]
fn nine_steps_are_refused() {
    assert_eq!(compare("unfold, nine steps", nine_steps(&mut Random::new(10)).into_iter()).seen(), [21]);
}

#[test]
fn wrong_programs() {
    let mut random = Random::new(11);
    let more = [bounds(&mut random), nine_steps(&mut random)].concat();
    let cases: Vec<_> = drawn(12, 1_000, sound).chain(drawn(13, 8_000, damaged)).chain(more).collect();
    wrong_programs_are_seen(&cases, wrong::PROGRAMS);
    wrong_programs_are_seen(&cases, readers::readers());
}

/// The safe call says what is wrong.
#[test]
fn bindings() {
    let Clocked { circuit, states, steps } = counter(1, 2);
    let mut unfolded = [9; 64];
    assert_eq!(ullimaqsu::unfold(&circuit, &states, steps, &mut unfolded), Ok(8));
    assert_eq!(check(&unfolded).expect("accepted").inputs, 3);
    let said = |states: &[u8], steps| ullimaqsu::unfold(&circuit, states, steps, &mut [9; 64]).unwrap_err().to_string();
    assert_eq!(said(&states, 0), "refusal 21: the number of steps is outside 1 to 8");
    let repeated = [state(2, 1), state(2, 0), state(3, 1)].concat();
    let bad =
        "the state records are not a multiple of 4 bytes, or one names no line, a state line that is no input, or one that is named before";
    assert_eq!(said(&repeated, 2), format!("refusal 18: {bad} (record 2)"));
}

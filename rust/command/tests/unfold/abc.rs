//! Berkeley ABC's `frames` beside the library's unfolding. Where ABC is missing this says so and compares nothing; `.ci/abc` installs it.
//!
//! Without `-i` its first frame keeps the latches, which `comb` then makes inputs, and what they would take after the last frame outputs. So it has
//! the inputs of frame after frame and then the first state, and the outputs of frame after frame and then the data of the last. The unfolded
//! records are written as BLIF in this order, and both are compared by their order. ABC reads the text with its flip-flops itself.
use crate::drawn::{line_of, with_flip_flops, Drawn};
use crate::harness::Directory;
use crate::unfold;
use cases::circuits::{without_selectors, INPUT};
use cases::clocked::pairs;
use cases::texts::{dense, of_records};
use cases::{blif, drawn as draw, Random};
use std::process::Command;

const ABC: &str = "berkeley-abc";

/// The lines of the outputs in the order of the text, which is ABC's.
fn outputs(case: &Drawn) -> Vec<usize> {
    let text = String::from_utf8_lossy(&case.text);
    let names = text.lines().filter_map(|line| line.strip_prefix("OUTPUT(")?.strip_suffix(')'));
    names.map(|name| line_of(&case.named, name)).collect()
}

/// The unfolded records as BLIF.
fn model(case: &Drawn, unfolded: &[u8]) -> String {
    let (lines, each, states) = (unfolded.len() / 8, case.named.names.len(), pairs(&case.states));
    let record = |line: usize| &unfolded[8 * line..8 * line + 8];
    let is_state = |line: usize| states.iter().any(|[_, state]| *state == line);
    let free = (0..lines).filter(|line| record(*line)[0] == INPUT && !is_state(line % each));
    let inputs: String = free.chain(states.iter().map(|[_, state]| *state)).map(|line| format!(" l{line}")).collect();
    let of_steps = (0..lines).step_by(each).flat_map(|step| outputs(case).into_iter().map(move |line| step + line));
    let shown: Vec<usize> = of_steps.chain(states.iter().map(|[data, _]| lines - each + data)).collect();
    // these are the outputs, and there are no others
    assert!((0..lines).all(|line| (record(line)[1] == 1) == shown.contains(&line)));
    let mut text = format!(".model m\n.inputs{inputs}\n.outputs{}\n", (0..shown.len()).map(|k| format!(" o{k}")).collect::<String>());
    for line in (0..lines).filter(|line| record(*line)[0] != INPUT) {
        text += &blif::gate(record(line), &format!("l{line}"), |source| format!("l{source}"));
    }
    text += &shown.iter().enumerate().map(|(k, line)| format!(".names l{line} o{k}\n1 1\n")).collect::<String>();
    text + ".end\n"
}

/// What ABC says of its own frames of the text that was unfolded last and of this BLIF.
fn verdict(directory: &Directory, steps: u64, model: &str) -> String {
    directory.write("unfolded.blif", model);
    let script =
        format!("read_bench text.bench; strash; frames -F {steps}; comb; write_blif frames.blif; cec -n frames.blif unfolded.blif");
    let run = Command::new(ABC).args(["-q", &script]).current_dir(&directory.0).output().expect("ABC runs");
    String::from_utf8_lossy(&run.stdout).into_owned()
}

/// The records with the first state line of the last step negated: a buffer as NOT.
fn spoilt(case: &Drawn, unfolded: &[u8]) -> Vec<u8> {
    let (mut wrong, [_, state]) = (unfolded.to_vec(), pairs(&case.states)[0]);
    wrong[unfolded.len() - 8 * (case.named.names.len() - state)] = 2;
    wrong
}

/// A circuit with plain names, as ABC reads them and does not make up itself, and some inputs as flip-flops.
fn plain(random: &mut Random) -> Drawn {
    let (lines, inputs) = (2 + random.below(30), 1 + random.below(6));
    let all = of_records(&without_selectors(random, lines.max(inputs + 1), inputs), 'G');
    let all = with_flip_flops(random, &all);
    let text = dense(&all);
    Drawn::of(random, &all, text)
}

#[test]
fn frames_are_equivalent() {
    if Command::new(ABC).arg("-h").output().is_err() {
        println!("ABSENT: {ABC} is not installed, and its frames of s27 were NOT compared with the library's unfolding");
        return;
    }
    let directory = Directory::new("frames");
    let (mut compared, mut wrong, mut told_apart) = (0, 0, 0);
    // ABC stops where outputs are inputs alone
    let with_gates = |case: &Drawn| case.flip_flops() > 0 && case.named.circuit.outputs().any(|line| line >= case.named.inputs().len());
    for case in (1..=8).map(Drawn::s27).chain(draw(1, 60, plain).filter(with_gates)) {
        let unfolded = unfold(&directory, &case.text, case.steps).1;
        let said = |records: &[u8]| verdict(&directory, case.steps, &model(&case, records));
        let right = said(&unfolded);
        assert!(right.contains("Networks are equivalent"), "{right}\n{}", String::from_utf8_lossy(&case.text));
        compared += 1;
        if case.steps > 1 {
            wrong += 1;
            // unless nothing reads the state line
            told_apart += usize::from(said(&spoilt(&case, &unfolded)).contains("Networks are NOT EQUIVALENT"));
        }
    }
    assert!(2 * told_apart > wrong, "{told_apart} of {wrong}");
    println!("{ABC}: {compared} unfoldings equivalent to its frames, and of {wrong} wrong ones {told_apart} told apart");
}

//! The bench reader against the second program: answer and buffer, byte by byte; and its circuits against the texts' own equations.
#[path = "wrong/answered.rs"]
mod answered;
mod harness;
#[path = "harness/simulated.rs"]
mod simulated;
#[path = "harness/text_cases.rs"]
mod text_cases;
#[path = "wrong/bench.rs"]
mod wrong;

use cases::Random;
use harness::{wrong_programs_are_seen, Bench, Case};
use second::bench::{placed, Placed, Text};
use second::entries::{self, Seen};
use second::values::byte;
use second::Value;
use simulated::simulated;
use text_cases::TextCase;
use ullimaqsu::{Counts, LARGEST_CIRCUIT};

impl Case for Bench {
    fn second(&self) -> Seen {
        entries::bench(&self.text, &self.circuit, &self.answer)
    }
}

impl TextCase for Bench {
    type Element = u8;
    const NAME: &'static str = "bench";

    fn lend(random: &mut Random, text: Vec<u8>) -> Bench {
        Bench { text, circuit: vec![random.byte(); LARGEST_CIRCUIT], answer: random.junk(32) }
    }

    fn text(&mut self) -> &mut Vec<u8> {
        &mut self.text
    }

    fn buffer(&mut self) -> &mut Vec<u8> {
        &mut self.circuit
    }

    fn answer(&mut self) -> &mut Vec<u8> {
        &mut self.answer
    }
}

#[test]
fn sound_texts() {
    text_cases::compare_sound::<Bench>();
}

#[test]
fn damaged_texts() {
    text_cases::compare_damaged::<Bench>();
}

#[test]
fn every_byte_and_all_boundaries() {
    text_cases::compare_every_byte_and_all_boundaries::<Bench>();
}

#[test]
fn two_defects_at_once() {
    text_cases::compare_two_defects_at_once::<Bench>();
}

#[test]
fn wrong_programs() {
    wrong_programs_are_seen(&text_cases::some_of_each_sort(), wrong::PROGRAMS);
}

/// What is read is accepted by the check, and computes what the text defines: under any pattern each name's line has the value that the
/// text's equations give, and the outputs are the text's.
#[test]
fn circuits_compute_what_texts_define() {
    let mut random = Random::new(14);
    for text in text_cases::sound_texts(15, 500) {
        let read = Text::read(&text).expect("right in syntax");
        let Placed { line_of, .. } = placed(&text).expect("sound");
        let mut circuit = [9; LARGEST_CIRCUIT];
        let records = ullimaqsu::bench(&text, &mut circuit).expect("sound");
        let circuit = &circuit[..8 * records as usize];
        let mut outputs: Vec<usize> = read.outputs.iter().map(|word| line_of[word.name]).collect();
        outputs.sort();
        outputs.dedup();
        let counts = Counts { lines: records, inputs: read.inputs.len() as u64, outputs: outputs.len() as u64 };
        assert_eq!(ullimaqsu::check(circuit), Ok(counts), "{text:?}");
        for _ in 0..3 {
            let inputs: Vec<Value> = read.inputs.iter().map(|_| random.pick(&[Some(false), Some(true), None])).collect();
            let values = simulated(circuit, &inputs.iter().map(byte).collect::<Vec<_>>());
            let named = read.values(&inputs);
            assert!(named.iter().all(|(name, value)| values[line_of[name]] == byte(value)), "{text:?}");
            assert!(outputs.iter().all(|&line| circuit[8 * line + 1] == 1));
        }
    }
}

/// The safe call, beside the second program.
#[test]
fn bindings() {
    let mut circuit = [9; LARGEST_CIRCUIT];
    for case in [&b"INPUT(a)\nOUTPUT(a)"[..], b"input(a)", b"INPUT(a)\nOUTPUT(b)", b"INPUT(a)\nb=NOT(b)", b"", b"INPUT(a)"] {
        let said = second::bench(case, LARGEST_CIRCUIT);
        let read = ullimaqsu::bench(case, &mut circuit);
        assert_eq!(
            read.map_err(|refusal| (refusal.number, refusal.place as usize)),
            said.map(|records| records.len() as u64 / 8).map_err(|refusal| (refusal.number, refusal.place))
        );
    }
    assert_eq!((circuit[..8].to_vec(), &circuit[8..]), (vec![0, 1, 0, 0, 0, 0, 0, 0], &[9; LARGEST_CIRCUIT - 8][..]));
    assert_eq!(ullimaqsu::bench(b"INPUT(a)\nOUTPUT(a)", &mut circuit[1..]).unwrap_err().number, 10);
}

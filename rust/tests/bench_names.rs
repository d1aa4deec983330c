//! The names of a text's lines against the second program: answer and places, element by element; and against the text's own definitions.
#[path = "wrong/answered.rs"]
mod answered;
mod harness;
#[path = "harness/named.rs"]
mod named;
#[path = "harness/text_cases.rs"]
mod text_cases;
#[path = "wrong/bench_names.rs"]
mod wrong;

use cases::Random;
use harness::{wrong_programs_are_seen, BenchNames, Case};
use named::name_at;
use second::bench::Text;
use second::circuit::{Circuit, Gate, Line};
use second::entries::{self, Seen};
use std::collections::HashMap;
use text_cases::TextCase;
use ullimaqsu::{LARGEST_CIRCUIT, MOST_LINES};

impl Case for BenchNames {
    fn second(&self) -> Seen {
        entries::bench_names(&self.text, &self.places, &self.answer)
    }
}

impl TextCase for BenchNames {
    type Element = u32;
    const NAME: &'static str = "bench names";

    fn lend(random: &mut Random, text: Vec<u8>) -> BenchNames {
        BenchNames { text, places: vec![random.word() as u32; MOST_LINES], answer: random.junk(32) }
    }

    fn text(&mut self) -> &mut Vec<u8> {
        &mut self.text
    }

    fn buffer(&mut self) -> &mut Vec<u32> {
        &mut self.places
    }

    fn answer(&mut self) -> &mut Vec<u8> {
        &mut self.answer
    }
}

#[test]
fn sound_texts() {
    text_cases::compare_sound::<BenchNames>();
}

#[test]
fn damaged_texts() {
    text_cases::compare_damaged::<BenchNames>();
}

#[test]
fn every_byte_and_all_boundaries() {
    text_cases::compare_every_byte_and_all_boundaries::<BenchNames>();
}

#[test]
fn two_defects_at_once() {
    text_cases::compare_two_defects_at_once::<BenchNames>();
}

#[test]
fn wrong_programs() {
    wrong_programs_are_seen(&text_cases::some_of_each_sort(), wrong::PROGRAMS);
}

/// A gate over names, or an input, and whether it is an output.
type Definition<'a> = (Gate<&'a [u8]>, bool);

/// What a text defines, by the first byte of the name.
fn definitions<'a>(text: &Text<'a>) -> HashMap<u32, Definition<'a>> {
    let is_output = |name: &[u8]| text.outputs.iter().any(|output| output.name == name);
    let inputs = text.inputs.iter().map(|&word| (word, Gate::Input));
    let gates = text.equations.iter().map(|&(word, gate)| (word, gate.over(|_, source| source.name)));
    inputs.chain(gates).map(|(word, gate)| (word.at as u32, (gate, is_output(word.name)))).collect()
}

/// The reader and the names tell of the same lines: what a text defines where a line's name stands is what the line's record says, over the
/// names of its sources. And each definition has a line.
#[test]
fn lines_are_what_the_text_defines_at_their_names() {
    for text in text_cases::sound_texts(14, 2_000) {
        let (mut circuit, mut places) = ([9; LARGEST_CIRCUIT], [9; MOST_LINES]);
        let records = ullimaqsu::bench(&text, &mut circuit).expect("sound");
        assert_eq!(ullimaqsu::bench_names(&text, &mut places), Ok(records), "{text:?}");
        let circuit = Circuit::read(&circuit[..8 * records as usize]).expect("accepted");
        let said = |line: &Line| (line.gate.over(|_, source| name_at(&text, places[source]).as_bytes()), line.output);
        let lines: HashMap<u32, Definition> = places.iter().zip(&circuit.lines).map(|(&place, line)| (place, said(line))).collect();
        assert_eq!(lines, definitions(&Text::read(&text).expect("right in syntax")), "{text:?}");
    }
}

/// The safe call, beside the second program.
#[test]
fn bindings() {
    let mut places = [9; MOST_LINES];
    for case in [&b"OUTPUT(y)\ny=NOT(a)\nINPUT(a)"[..], b"input(a)", b"INPUT(a)\nOUTPUT(b)", b"INPUT(a)\nb=NOT(b)", b"", b"INPUT(a)"] {
        let said = second::bench_names(case, MOST_LINES);
        let named = ullimaqsu::bench_names(case, &mut places);
        assert_eq!(
            named.map_err(|refusal| (refusal.number, refusal.place as usize)),
            said.map(|names| names.len() as u64).map_err(|refusal| (refusal.number, refusal.place))
        );
    }
    assert_eq!((places[..2].to_vec(), &places[2..]), (vec![25, 10], &[9; MOST_LINES - 2][..]));
    assert_eq!(ullimaqsu::bench_names(b"INPUT(a)\nOUTPUT(a)", &mut places[1..]).unwrap_err().number, 10);
}

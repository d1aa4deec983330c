//! The second program's bench reader on texts that are drawn: what its refusals and records mean, said in another way.
use cases::{drawn, texts, Random, Tally};
use second::bench::{bench, parse, placed, Placed, Text};
use second::{Refusal, Value};

/// Counts what is answered.
fn answers(texts: impl Iterator<Item = Vec<u8>>) -> Tally {
    let mut tally = Tally::default();
    texts.for_each(|text| tally.count(bench(&text, 16_384).map_or_else(|refusal| refusal.number, |_| 0)));
    println!("{tally}");
    tally
}

/// The cases are what their names say.
#[test]
fn drawn_texts() {
    assert_eq!(answers(drawn(1, 5_000, texts::small)).seen(), [0]);
    assert_eq!(answers(drawn(2, 5_000, texts::misnamed)).seen(), [0, 1, 5, 15, 16]);
    assert_eq!(answers(drawn(3, 1_000, texts::cyclic)).seen(), [16]);
    assert_eq!(answers(drawn(4, 5_000, texts::damaged)).seen(), [0, 1, 5, 14, 15]);
    assert_eq!(answers(drawn(5, 5_000, texts::soup)).seen(), [1, 5, 14, 15]);
    assert_eq!(answers(drawn(6, 200, texts::near_the_end)).seen(), [0, 14]);
    let largest = [(2048, 64), (2048, 1), (2049, 64), (2048, 65)];
    let largest = largest.map(|(lines, inputs)| texts::largest(&mut Random::new(7), lines, inputs));
    assert!(largest.iter().all(|text| text.len() == texts::MOST));
    assert_eq!(answers(largest.into_iter()).seen(), [0, 1, 4]);
    let chains = [1, 2, 2048, 2049].into_iter().flat_map(|lines| [false, true].map(|backwards| texts::chain(lines, backwards)));
    assert_eq!(answers(chains).seen(), [0, 1]);
}

/// Some right text begins with these bytes. One of these ends makes it right, wherever a statement was left.
fn begins_a_right_text(bytes: &[u8]) -> bool {
    const ENDS: &str =
        " =NOT(a) NOT(a) OT(a) T(a) (a) a) ) UFF(a) FF(a) F(a) AND(a,a) ND(a,a) D(a,a) OR(a,a) R(a,a) NOR(a,a) (a,a) a,a) ,a)";
    ENDS.split(' ').any(|end| parse(&[bytes, end.as_bytes()].concat()).is_ok())
}

/// Refusal 14 is where no right text goes on: one begins with the bytes before its place, none with those up to it.
#[test]
fn no_right_text_goes_on() {
    let mut seen = [0; 2];
    for text in drawn(11, 1_000, texts::damaged).chain(drawn(12, 3_000, texts::soup)) {
        match parse(&text) {
            Ok(_) => assert!((0..=text.len()).all(|len| begins_a_right_text(&text[..len])), "{text:?}"),
            Err(place) => {
                assert!((0..=place).all(|len| begins_a_right_text(&text[..len])), "{text:?}");
                assert!(place == text.len() || !begins_a_right_text(&text[..=place]), "{text:?}");
                seen[usize::from(place == text.len())] += 1;
            }
        }
    }
    assert!(seen.iter().all(|&times| times > 100), "{seen:?}");
}

/// Which gates each gate depends on, through any number of sources.
fn dependence(text: &Text) -> Vec<Vec<bool>> {
    let gates = 0..text.equations.len();
    let mut depends: Vec<Vec<bool>> = text
        .equations
        .iter()
        .map(|(_, gate)| text.equations.iter().map(|(word, _)| gate.sources().iter().any(|source| source.name == word.name)).collect())
        .collect();
    for through in gates.clone() {
        for gate in gates.clone().filter(|&gate| depends[gate][through]).collect::<Vec<_>>() {
            let more = depends[through].clone();
            depends[gate].iter_mut().zip(more).for_each(|(depends, more)| *depends |= more);
        }
    }
    depends
}

/// Without 14 and 15, 16 is given exactly if some gate depends on itself; its place is the first gate that does, or that depends on such a one.
#[test]
fn cycles() {
    let mut seen = [0; 3];
    for text in drawn(13, 10_000, texts::misnamed).chain(drawn(14, 1_000, texts::cyclic)) {
        let read = Text::read(&text).expect("right in syntax");
        if read.names().is_ok() {
            let depends = dependence(&read);
            let round = |gate: usize| depends[gate][gate];
            let stuck = |&gate: &usize| round(gate) || (0..depends.len()).any(|other| depends[gate][other] && round(other));
            let first = (0..depends.len()).find(stuck);
            assert_eq!(read.place().err(), first.map(|place| Refusal { number: 16, place }), "{text:?}");
            seen[first.map_or(0, |first| 1 + usize::from(round(first)))] += 1;
        }
    }
    assert!(seen.iter().all(|&times| times > 300), "{seen:?}");
}

/// The circuit computes what the text defines: under any pattern each name's line has the value that its equation gives.
#[test]
fn circuits_compute_what_texts_define() {
    let mut random = Random::new(15);
    for text in drawn(16, 2_000, texts::small) {
        let read = Text::read(&text).expect("right in syntax");
        let Placed { circuit, line_of, .. } = placed(&text).expect("sound");
        let outputs: Vec<usize> = read.outputs.iter().map(|word| line_of[word.name]).collect();
        assert!((0..circuit.lines.len()).all(|line| circuit.lines[line].output == outputs.contains(&line)));
        for _ in 0..5 {
            let inputs: Vec<Value> = read.inputs.iter().map(|_| random.pick(&[Some(false), Some(true), None])).collect();
            let (named, by_line) = (read.values(&inputs), circuit.values(&inputs, None));
            assert_eq!(named.len(), by_line.len());
            assert!(named.iter().all(|(name, value)| by_line[line_of[name]] == *value), "{text:?}");
        }
    }
}

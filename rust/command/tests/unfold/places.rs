//! Places in drawn texts: whatever stands before, line and column are those of the user's file.
use crate::drawn::{flip_flop, with_flip_flops};
use crate::harness::{ullimaqsu, Directory};
use cases::texts::{gate, input, output, statements, written, Statement};
use cases::{damage, drawn, Random};
use second::bench::parse;
use std::path::Path;

/// The byte, and the words behind its place, where a text is refused at one. Line and column are right.
fn place(directory: &Directory, text: &[u8]) -> Option<(usize, String)> {
    let file = directory.write("text.bench", text);
    let (_, _, said) = ullimaqsu(&[Path::new("unfold"), &file, Path::new("1")]);
    let words = said.strip_prefix(&format!("ullimaqsu: {}: line ", file.display()))?;
    let (place, says) = words.split_once("): ").expect("a place");
    let byte: usize = place.split_once("(byte ").expect("a byte").1.parse().expect("a number");
    let line = 1 + text[..byte].iter().filter(|&&byte| byte == b'\n').count();
    let column = 1 + text[..byte].iter().rev().take_while(|&&byte| byte != b'\n').count();
    assert!(place.starts_with(&format!("{line}, column {column} (")), "{said}");
    Some((byte, says.trim_end().to_string()))
}

fn clocked(random: &mut Random) -> Vec<Statement> {
    let lines = 2 + random.below(20);
    let inputs = 1 + random.below(lines);
    let plain = statements(random, lines, inputs);
    with_flip_flops(random, &plain)
}

/// Puts a statement anywhere.
fn put(random: &mut Random, all: &mut Vec<Statement>, statement: Statement) {
    all.insert(random.below(all.len() + 1), statement);
}

/// Where a word stands in a text: it is no part of another.
fn places_of(text: &[u8], word: &str) -> Vec<usize> {
    (0..text.len()).filter(|&at| text[at..].starts_with(word.as_bytes())).collect()
}

/// A name that is defined nowhere, as the data of a flip-flop, at a gate or as an output.
#[test]
fn undefined_names() {
    let directory = Directory::new("undefined");
    const NAME: &str = "defined_nowhere";
    let case = |random: &mut Random| {
        let mut all = clocked(random);
        let statement = match random.below(3) {
            0 => flip_flop("of_nothing", NAME),
            1 => gate("of_nothing", 2, [NAME, NAME]),
            _ => output(NAME),
        };
        put(random, &mut all, statement);
        written(random, &all)
    };
    for text in drawn(1, 150, case) {
        let [at] = places_of(&text, NAME)[..] else { panic!("once") };
        assert_eq!(place(&directory, &text), Some((at, format!("`{NAME}` is used here and defined nowhere"))));
    }
}

/// A name that is defined twice: by a flip-flop, a gate or an input, and again by one of these.
#[test]
fn names_defined_twice() {
    let directory = Directory::new("twice");
    const NAME: &str = "defined_twice";
    let case = |random: &mut Random| {
        let mut all = clocked(random);
        let source = all.iter().find_map(|one| (one[1] == "=").then(|| one[0].clone())).unwrap_or_else(|| all[0][2].clone());
        for _ in 0..2 {
            let statement = match random.below(4) {
                0 => input(NAME),
                1 => gate(NAME, 2, [&source, &source]),
                _ => flip_flop(NAME, &source),
            };
            put(random, &mut all, statement);
        }
        written(random, &all)
    };
    for text in drawn(2, 150, case) {
        let [first, second] = places_of(&text, NAME)[..] else { panic!("twice") };
        let line = 1 + text[..first].iter().filter(|&&byte| byte == b'\n').count();
        assert_eq!(place(&directory, &text), Some((second, format!("`{NAME}` is defined here a second time, after line {line}"))));
    }
}

/// The same text with NOT for DFF, which is of the same form and as long.
fn with_gates(text: &[u8]) -> Vec<u8> {
    let mut same = text.to_vec();
    places_of(text, "DFF").into_iter().for_each(|at| same[at..at + 3].copy_from_slice(b"NOT"));
    same
}

/// Wrong names of every sort, several of them too: the first is that of the same text with NOT for DFF, by the second program.
#[test]
fn wrong_names() {
    let directory = Directory::new("names");
    let case = |random: &mut Random| {
        let mut all = clocked(random);
        for _ in 0..1 + random.below(3) {
            let names: Vec<[usize; 2]> = (0..all.len()).flat_map(|number| names_of(&all[number]).map(move |at| [number, at])).collect();
            let [[number, at], [other, from]] = [random.pick(&names), random.pick(&names)];
            all[number][at] = if random.once_in(3) { "defined_nowhere".to_string() } else { all[other][from].clone() };
        }
        written(random, &all)
    };
    let (mut wrong, mut right) = (0, 0);
    for text in drawn(4, 300, case) {
        let name = second::bench::placed(&with_gates(&text)).err().filter(|refusal| refusal.number == 15);
        let said = place(&directory, &text).filter(|(_, says)| says.starts_with('`'));
        assert_eq!(said.as_ref().map(|(at, _)| *at), name.map(|refusal| refusal.place), "{said:?}: {}", String::from_utf8_lossy(&text));
        *(if said.is_some() { &mut wrong } else { &mut right }) += 1;
    }
    assert!(wrong > 150 && right > 20, "{wrong} {right}");
}

/// Where names stand in a statement.
fn names_of(statement: &Statement) -> impl Iterator<Item = usize> {
    let places: &[usize] = match (statement[1].as_str(), statement.len()) {
        ("=", 6) => &[0, 4],
        ("=", _) => &[0, 4, 6],
        _ => &[2],
    };
    places.iter().copied()
}

/// Damage: the first byte that can't go on is that of the same text with NOT for DFF, which has the same form; unless the word of a flip-flop is
/// itself damaged, where a letter or two may be right.
#[test]
fn damaged_texts() {
    let directory = Directory::new("damaged");
    let case = |random: &mut Random| {
        let all = clocked(random);
        let mut text = written(random, &all);
        damage::several(random, &mut text, damage::text);
        text
    };
    let (mut compared, mut words) = (0, 0);
    for text in drawn(3, 400, case).filter(|text| !matches!(text.first(), Some(0..=9))) {
        let same = with_gates(&text);
        let Err(right) = parse(&same) else { continue };
        let (at, says) = place(&directory, &text).expect("refused at a place");
        if same.get(right) == Some(&b'D') && at > right {
            assert!(says.contains("the rest of DFF") && at < right + 3, "{says}");
            words += 1;
        } else {
            assert_eq!(at, right, "{says}: {}", String::from_utf8_lossy(&text));
            compared += 1;
        }
    }
    assert!(compared > 150, "{compared} {words}");
    println!("unfold: {compared} damaged texts with the same place as with NOT for DFF, {words} with a damaged word");
}

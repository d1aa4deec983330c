//! The header's names, numbers and words, and all that must agree with them: the bindings, what the example in C and `./ullimaqsu` print, and
//! the docs.
#[path = "harness/command.rs"]
mod command;
#[path = "harness/x86.rs"]
mod x86;

use cases::circuits::{self, example_a, record, INPUT};
use cases::directory::{root, Directory};
use command::{run, ullimaqsu};
use second::{program, Entry, Files, Finding};
use std::collections::{BTreeMap, BTreeSet};
use std::fs;
use std::path::Path;
use ullimaqsu::{refusals, Meaning, Outcome, Refusal};

fn read(name: &str) -> String {
    fs::read_to_string(root().join(name)).expect("a text")
}

/// The names of the header and their numbers: those of the table, and those that an enumeration or a definition spells out.
fn names() -> BTreeMap<String, u64> {
    let header = read("include/ullimaqsu.h");
    let spelt = header.lines().filter_map(|line| {
        let defined = line.strip_prefix("#define ").and_then(|rest| rest.split_once(' '));
        let (name, number) = defined.or_else(|| line.trim_start().split_once(" = "))?;
        let number = number.split(|letter: char| !letter.is_ascii_digit()).next()?;
        Some((name.strip_prefix("ULLIMAQSU_")?.to_string(), number.parse().ok()?))
    });
    let table = refusals().map(|meaning| (meaning.name.trim_start_matches("ULLIMAQSU_").to_string(), meaning.number.into()));
    spelt.chain(table).collect()
}

#[test]
fn the_table_of_refusals() {
    let rows = read("include/ullimaqsu.h").lines().filter(|line| line.trim_start().starts_with("each(ULLIMAQSU_")).count();
    let all: Vec<Meaning> = refusals().collect();
    assert_eq!(all.len(), rows);
    assert_eq!(
        all.iter().map(|meaning| meaning.number).collect::<Vec<_>>(),
        [1, 2, 4, 5, 6, 7, 8, 9, 10, 11, 12, 13, 14, 15, 16, 17, 18, 19, 21, 22]
    );
    for Meaning { name, says, counts, .. } in &all {
        assert!(name.starts_with("ULLIMAQSU_") && !name.contains(' ') && says.contains(' ') && !says.contains('"'), "{name}: {says}");
        assert!(counts.is_none_or(|counts| !counts.contains('"') && counts.trim() == counts), "{name}: {counts:?}");
    }
    assert_eq!(Refusal::new(13, 5).to_string(), "refusal 13: a table byte is above 2 (byte 5)");
    assert_eq!(Refusal::new(5, 0).to_string(), "refusal 5: the circuit has no output");
    assert_eq!(Refusal::new(21, 0).to_string(), "refusal 21: the number of steps is outside 1 to 8");
    assert_eq!(Refusal::new(2, 34).to_string(), "refusal 2: a circuit record breaks its layout (byte 34)");
    assert_eq!(Refusal::new(3, 0).to_string(), "refusal 3: unknown (place 0)");
    assert_eq!(Refusal::new(256, 0).to_string(), "refusal 256: unknown (place 0)");
}

#[test]
fn numbers_elsewhere() {
    let names = names();
    let number = |name: &str| names[name];
    let outcomes = [("TEST", Outcome::Test), ("REDUNDANT", Outcome::Redundant), ("GIVEN_UP", Outcome::GivenUp)];
    assert!(outcomes.iter().all(|&(name, outcome)| number(name) == outcome as u64));
    let entries = [("PASS", Entry::Pass), ("FAIL", Entry::Fail), ("UNKNOWN", Entry::Unknown)];
    assert!(entries.iter().all(|&(name, entry)| number(name) == entry as u64));
    let findings = [
        ("SOUND", Finding::Sound),
        ("BAD_MARK", Finding::BadMark(0)),
        ("LOST_FAULT", Finding::LostFault(0)),
        ("LOST_PAIR", Finding::LostPair(0, 1)),
        ("SPARE_PATTERN", Finding::SparePattern(0)),
    ];
    assert!(findings.iter().all(|&(name, finding)| number(name) == finding.numbers()[0]));
    let kinds = [
        ("INPUT", INPUT),
        ("BUFFER", circuits::BUFFER),
        ("NOT", circuits::NOT),
        ("AND", circuits::AND),
        ("NAND", circuits::NAND),
        ("OR", circuits::OR),
        ("NOR", circuits::NOR),
        ("XOR", circuits::XOR),
        ("XNOR", circuits::XNOR),
        ("SELECTOR", circuits::SELECTOR),
    ];
    assert!(kinds.iter().all(|&(name, kind)| number(name) == kind.into()));
    assert_eq!(number("SUSPECTS"), ullimaqsu::SUSPECTS as u64);
    let named = 2 + refusals().count() + outcomes.len() + entries.len() + findings.len() + kinds.len();
    assert_eq!((number("FINE"), names.len()), (0, named), "each name stands once, and no other number has one");
}

/// Where the docs write a name the header has it, with the number that stands before it.
#[test]
fn names_in_the_docs() {
    let names = names();
    let mut numbered = 0;
    for text in ["docs/INTERFACE.md", "README.md"].map(read) {
        let mut before = "";
        for word in text.split_whitespace() {
            if let Some((_, rest)) = word.split_once("`ULLIMAQSU_") {
                let name = rest.split(['`', '(']).next().expect("a beginning");
                assert!(["REFUSALS", "FIELDS"].contains(&name) || names.contains_key(name), "{word}");
                if let Ok(number) = before.parse() {
                    assert_eq!(names.get(name), Some(&number), "{before} {word}");
                    numbered += 1;
                }
            }
            before = word;
        }
    }
    assert!(numbered > 0, "numbers stand before names");
}

macro_rules! rows {
    ($($name:ident = $entry:ident $parameters:tt;)*) => { [$(concat!(stringify!($entry), stringify!($parameters))),*] };
}

fn element(in_c: &str) -> &str {
    match in_c {
        "uint8_t" => "u8",
        "int32_t" => "i32",
        "uint32_t" => "u32",
        "uint64_t" => "u64",
        "double" => "f64",
        other => panic!("{other} is no element"),
    }
}

/// A declaration, from the entry's name on, as the row of the table has it, without blanks.
fn row(declaration: &str) -> String {
    let (entry, rest) = declaration.split_once('(').expect("parameters");
    let mut in_c = rest.split_once(");").expect("their end").0.split(',').map(str::trim);
    let mut row = vec![];
    while let Some(parameter) = in_c.next() {
        let (of, name) = parameter.rsplit_once(' ').expect("a type and a name");
        let Some(name) = name.strip_prefix('*') else {
            row.push(format!("{name}:{}", element(of)));
            continue;
        };
        assert_eq!(in_c.next(), Some(&*format!("size_t {name}_len")), "{entry}: a slice has its length");
        row.push(match of.strip_prefix("const ") {
            Some(of) => format!("{name}:&[{}]", element(of)),
            None => format!("{name}:&mut[{}]", element(of)),
        });
    }
    format!("{entry}({})", row.join(","))
}

/// The table of entries in Rust says what the header declares: nothing else would tell the linker.
#[test]
fn declarations() {
    let declared: Vec<String> = read("include/ullimaqsu.h").split("\nuint32_t ").skip(1).map(row).collect();
    assert_eq!(ullimaqsu::entries!(rows).map(|row| row.replace([' ', '\n'], "")).to_vec(), declared);
}

type Spoil = fn(&mut Vec<u8>);

/// Example A, spoilt so that each refusal is given that files can have, but for refusal 2.
fn refused_files() -> Vec<(&'static str, Files)> {
    let circuit = example_a();
    let faults = [[3, 0, 0, 0, 0, 0, 0, 0], [0, 0, 0, 1, 0, 0, 0, 0]].concat();
    let patterns = vec![1, 1, 0, 0, 1, 0];
    let spoils: [(&str, Spoil); 7] = [
        ("circuit", |bytes| bytes.truncate(7)),
        ("circuit", |bytes| *bytes = record(INPUT, true, 0, 0).repeat(65)),
        ("circuit", |bytes| bytes.truncate(24)),
        ("faults", |bytes| bytes.clear()),
        ("faults", |bytes| bytes[10] = 1),
        ("patterns", |bytes| bytes.truncate(5)),
        ("patterns", |bytes| bytes[4] = 3),
    ];
    let spoilt = |(name, spoil): (&'static str, Spoil)| {
        let [mut circuit, mut faults, mut patterns] = [circuit.clone(), faults.clone(), patterns.clone()];
        match name {
            "circuit" => spoil(&mut circuit),
            "faults" => spoil(&mut faults),
            _ => spoil(&mut patterns),
        }
        (name, Files { circuit: Some(circuit), faults: Some(faults), patterns: Some(patterns) })
    };
    spoils.map(spoilt).into()
}

/// Circuits in which a field breaks its rule, some with fields after it that break theirs, and what is said of each: every field, and both ways
/// in which a source can be wrong.
fn bad_fields() -> Vec<(Vec<u8>, &'static str)> {
    let input = record(INPUT, false, 0, 0);
    let lines = [input, input, record(circuits::NOT, false, 1, 0), circuits::selector(false, 0, 1, 2)].into_iter();
    let sound: Vec<u8> = lines.chain((4..18).map(|_| record(circuits::AND, true, 0, 1))).flatten().collect();
    let spoilt: [(usize, &[u8], &str); 10] = [
        (136, &[10, 2, 200, 0, 200, 0, 1], "line 17, kind (byte 136): 10 is no kind"),
        (137, &[2, 200, 0, 200, 0, 1], "line 17, output (byte 137): 2 is neither 0 nor 1"),
        (138, &[17, 0, 200, 0, 1], "line 17, first source (byte 138): 17 is not lower than the line"),
        (140, &[200, 0, 1], "line 17, second source (byte 140): 200 is not lower than the line"),
        (143, &[1], "line 17, select (byte 142): 256 is not 0, and the line's kind has no select"),
        (30, &[3], "line 3, select (byte 30): 3 is not lower than the line"),
        (31, &[1], "line 3, select (byte 30): 258 is not lower than the line"),
        (11, &[1], "line 1, first source (byte 10): 256 is not 0, and the line's kind has no first source"),
        (12, &[1], "line 1, second source (byte 12): 1 is not 0, and the line's kind has no second source"),
        (20, &[1], "line 2, second source (byte 20): 1 is not 0, and the line's kind has no second source"),
    ];
    let spoil = |(at, bytes, words): (usize, &[u8], _)| {
        let mut circuit = sound.clone();
        circuit[at..at + bytes.len()].copy_from_slice(bytes);
        (circuit, words)
    };
    spoilt.map(spoil).into()
}

/// Every safe call that reads a circuit says which field of it is bad.
#[test]
fn words_of_fields() {
    for (circuit, words) in bad_fields() {
        let (fault, pattern) = ([0; 8], [0; 2]);
        let refused = [
            ullimaqsu::check(&circuit).err(),
            ullimaqsu::dictionary(&circuit, &fault, &pattern, &mut [0], &mut [0; 36]).err(),
            ullimaqsu::dictionary_lanes(&circuit, &fault, &pattern, &mut [0], &mut [0; 72]).err(),
            ullimaqsu::unfold(&circuit, &[], 1, &mut [0; 144]).err(),
            ullimaqsu::unfold_dictionary(&circuit, &[], 1, &fault, &pattern, &mut [0], &mut [0; 36]).err(),
            ullimaqsu::search(&circuit, &fault, 0, &mut [0; 2], &mut [0; 36]).err(),
            ullimaqsu::search_heads(&circuit, &fault, 0, &mut [0; 2], &mut [0; 36]).err(),
            ullimaqsu::search_all(&circuit, &fault, &[0], &mut [0; 2], &mut [0; 36]).err(),
            ullimaqsu::clauses(&circuit, &fault, &mut []).err(),
            ullimaqsu::control(&circuit, &mut [0.0; 18], &mut [0.0; 18]).err(),
        ];
        for refusal in refused {
            assert_eq!(refusal.expect("refused").to_string(), format!("refusal 2: {words}"));
        }
    }
}

/// The example in C and the command say of each refusal what the header says, and the command also of which file. Of refusal 2 they say which
/// field is bad.
#[test]
fn printed_words() {
    let directory = Directory::new("refused");
    let of_files = refused_files().into_iter().map(|(name, files)| (name, files, None));
    let of_fields = bad_fields().into_iter().map(|(circuit, words)| {
        let files = Files { circuit: Some(circuit), faults: Some(vec![0; 8]), patterns: Some(vec![0; 2]) };
        ("circuit", files, Some(words))
    });
    let mut seen = BTreeSet::new();
    for (name, files, field) in of_files.chain(of_fields) {
        let paths = [("circuit", &files.circuit), ("faults", &files.faults), ("patterns", &files.patterns)]
            .map(|(name, bytes)| directory.write(&format!("{name}.rec"), bytes.as_ref().expect("bytes")));
        let refused = program(&files);
        let numbers: Vec<u64> = refused.split_whitespace().skip(1).map(|number| number.parse().expect("a number")).collect();
        let refusal = Refusal::new(numbers[0] as u32, numbers[1]).to_string();
        let words = field.map_or(refusal, |words| format!("refusal 2: {words}"));

        let (status, printed, _) = run(x86::program("build/front_end").args(&paths));
        let last = printed.lines().last().expect("a line");
        assert_eq!((status, last.split_once(": ").expect("the part").1), (Some(1), words.as_str()));

        let says = words.split_once(": ").expect("the number").1;
        let line = format!("ullimaqsu: {}/{name}.rec: {says}\n", directory.0.display());
        assert_eq!(ullimaqsu(&[Path::new("dictionary"), &directory.0]), (Some(1), refused, line));
        seen.insert(numbers[0]);
    }
    assert_eq!(seen, BTreeSet::from([1, 2, 4, 5, 6, 7, 8, 9]));
}

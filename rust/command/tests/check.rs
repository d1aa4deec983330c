//! `ullimaqsu check`, and every file that may be given as a circuit.
mod harness;
#[path = "harness/other_user.rs"]
mod other_user;

use cases::circuits::{self, record, selector, AND, BUFFER, INPUT};
use cases::{damage, drawn, texts, Directory, Random};
use harness::named::Named;
use harness::{examples, printed, refused, stopped, ullimaqsu};
use std::fs::{self, Permissions};
use std::os::unix::fs::PermissionsExt;
use std::path::Path;

fn check(path: &Path) -> harness::Said {
    ullimaqsu(&[Path::new("check"), path])
}

/// The line that the second program has for a circuit.
fn counts(circuit: &second::Circuit) -> String {
    let counts = circuit.counts();
    format!("lines {}, inputs {}, outputs {}\n", counts.lines, counts.inputs, counts.outputs)
}

fn fine(printed: String) -> harness::Said {
    (Some(0), printed, String::new())
}

#[test]
fn examples_and_their_records() {
    let directory = Directory::new("check");
    for path in examples() {
        let named = Named::of_file(&path);
        assert_eq!(check(&path), fine(counts(&named.circuit)));
        assert_eq!(check(&directory.write("circuit.rec", named.circuit.write())), fine(counts(&named.circuit)));
    }
}

/// A text or records are accepted exactly if the second program accepts them; else there is one line on standard error and no other.
#[test]
fn accepted_or_not() {
    let directory = Directory::new("accepted");
    let (mut accepted, mut refused) = (0, 0);
    let mut compare = |bytes: &[u8]| {
        let path = directory.write("circuit", bytes);
        let right = match bytes.first() {
            Some(0..9) => second::Circuit::read(bytes),
            _ => second::bench(bytes, 16_384).and_then(|records| second::Circuit::read(&records)),
        };
        match (check(&path), right) {
            (said, Ok(circuit)) => {
                accepted += 1;
                assert_eq!(said, fine(counts(&circuit)));
            }
            ((status, printed, said), Err(_)) => {
                refused += 1;
                assert_eq!((status, printed.as_str(), said.lines().count()), (Some(1), "", 1), "{said}");
                assert!(said.starts_with(&format!("ullimaqsu: {}: ", path.display())), "{said}");
            }
        }
    };
    drawn(1, 150, texts::small).for_each(|text| compare(&text));
    drawn(2, 150, texts::damaged).for_each(|text| compare(&text));
    drawn(3, 100, texts::misnamed).for_each(|text| compare(&text));
    drawn(4, 100, circuits::small).for_each(|records| compare(&records));
    let spoilt = |random: &mut Random| {
        let mut records = circuits::small(random);
        damage::several(random, &mut records, damage::circuit);
        records
    };
    drawn(5, 150, spoilt).for_each(|records| compare(&records));
    assert!(accepted > 200 && refused > 200, "{accepted} and {refused}");
}

/// Names that are keywords, of one letter, of sixteen, of digits alone, in lines that end with CR LF.
#[test]
fn odd_names() {
    let directory = Directory::new("odd");
    let text = "INPUT(INPUT)\r\nINPUT(AND)\r\nINPUT(7)\r\n OUTPUT ( OUTPUT )\r\n# \0 may stand in a comment\r\nOUTPUT = NAND(INPUT, \tsixteen_letters_)\r\n\
                sixteen_letters_ = AND(AND, 7)\r\nb = NOT(7)";
    let path = directory.write("odd.bench", text);
    assert_eq!(check(&path), fine("lines 6, inputs 3, outputs 1\n".to_string()));
    let lines = ["INPUT", "AND", "7", "sixteen_letters_", "OUTPUT", "b"];
    let faults: String = lines.iter().flat_map(|name| [format!("{name}/0\n"), format!("{name}/1\n")]).collect();
    assert_eq!(printed(&[Path::new("faults"), &path]), faults);
    let test = printed(&[Path::new("search"), &path, Path::new("AND/0"), Path::new("--csv")]);
    assert_eq!(test, "fault,outcome,nodes,INPUT,AND,7\nAND/0,test,7,1,1,1\n");
}

/// The sizes that a circuit may have, and one more.
#[test]
fn sizes() {
    let (directory, random) = (Directory::new("sizes"), &mut Random::new(6));
    for (lines, inputs) in [(1, 1), (65, 64), (2048, 64)] {
        let text = texts::largest(random, lines, inputs);
        assert_eq!(check(&directory.write("text", &text)), fine(counts(&Named::of_text(&text).circuit)));
        let records = circuits::circuit(random, lines, inputs);
        assert_eq!(check(&directory.write("records", &records)), fine(counts(&Named::of_records(&records).circuit)));
    }
    let long = directory.write("long.rec", circuits::circuit(random, 2049, 64));
    let says = "refusal 1: the circuit is not a multiple of 8 bytes, empty, or above 2,048 records";
    assert_eq!(check(&long), refused(&format!("{}: {says}", long.display())));
    let wide = directory.write("wide.rec", circuits::circuit(random, 66, 65));
    assert_eq!(check(&wide), refused(&format!("{}: refusal 4: the circuit has more than 64 inputs", wide.display())));
    // what is longer than any text is refused without being read to its end
    let says = "line 1, column 32769 (byte 32768): a text has at most 32,768 bytes, and this one goes on";
    let text = directory.write("long.bench", vec![b' '; 40_000]);
    assert_eq!(check(&text), refused(&format!("{}: {says}", text.display())));
}

/// The first byte decides, and after a tab the second: a text stays one with whatever byte in it, and records with whatever kind of their first line.
#[test]
fn a_text_or_records() {
    let directory = Directory::new("told");
    let check = |bytes: &[u8]| {
        let path = directory.write("circuit", bytes);
        (check(&path), path.display().to_string())
    };
    let (said, path) = check(b"INPUT(a)\nOUTPUT(y)\ny=NOT(\0a)\n");
    assert_eq!(said, refused(&format!("{path}: line 3, column 7 (byte 25): after `(` there must be a name, and here is byte 0")));
    assert_eq!(check(b"INPUT(a) # \0\x08\nOUTPUT(a)").0, fine("lines 1, inputs 1, outputs 1\n".to_string()));
    assert_eq!(check(&[0, 1, 0, 0, 0, 0, 0, 0]).0, fine("lines 1, inputs 1, outputs 1\n".to_string()));
    // a 9 is a tab, and the kind of a selector
    assert_eq!(check(b"\tINPUT(a)\nOUTPUT(a)").0, fine("lines 1, inputs 1, outputs 1\n".to_string()));
    assert_eq!(check(b"\t\t#\x01\nINPUT(a)\nOUTPUT(a)").0, fine("lines 1, inputs 1, outputs 1\n".to_string()));
    for first in 1..=255 {
        let ((status, _, said), _) = check(&[first, 1, 0, 0, 0, 0, 0, 0]);
        let as_records = said.ends_with(": refusal 2: line 0, first source (byte 2): 0 is not lower than the line\n");
        assert_eq!((status, as_records), (Some(1), first < 10), "{said}");
    }
    for second in 2..=255 {
        let ((status, _, said), path) = check(&[9, second, 0, 0, 0, 0, 0, 0]);
        let as_records = said == format!("ullimaqsu: {path}: refusal 2: line 0, output (byte 1): {second} is neither 0 nor 1\n");
        assert_eq!((status, as_records), (Some(1), second < 9), "{said}");
    }
}

/// What is wrong with records, in the words of the header.
#[test]
fn wrong_records() {
    let directory = Directory::new("wrong records");
    let one = [record(INPUT, false, 0, 0), record(BUFFER, true, 0, 0)].concat();
    let with = |at: usize, byte: u8| {
        let mut records = one.clone();
        records[at] = byte;
        records
    };
    let cases = [
        (one[..15].to_vec(), "refusal 1: the circuit is not a multiple of 8 bytes, empty, or above 2,048 records"),
        (with(0, 8), "refusal 2: line 0, first source (byte 2): 0 is not lower than the line"),
        (with(8, 10), "refusal 2: line 1, kind (byte 8): 10 is no kind"),
        (with(9, 2), "refusal 2: line 1, output (byte 9): 2 is neither 0 nor 1"),
        (with(11, 1), "refusal 2: line 1, first source (byte 10): 256 is not lower than the line"),
        (with(12, 1), "refusal 2: line 1, second source (byte 12): 1 is not 0, and the line's kind has no second source"),
        (with(15, 1), "refusal 2: line 1, select (byte 14): 256 is not 0, and the line's kind has no select"),
        (with(9, 0), "refusal 5: the circuit has no output"),
    ];
    for (records, says) in cases {
        let path = directory.write("circuit.rec", records);
        assert_eq!(check(&path), refused(&format!("{}: {says}", path.display())));
    }
}

/// A select is lower than its selector, as the sources are; of an AND the last two bytes stay zero.
#[test]
fn wrong_selectors() {
    let directory = Directory::new("wrong selectors");
    let check = |last: [u8; 8]| {
        let path = directory.write("circuit.rec", [record(INPUT, false, 0, 0), record(INPUT, false, 0, 0), last].concat());
        let (status, printed, said) = check(&path);
        (status, printed + said.strip_prefix(&format!("ullimaqsu: {}: ", path.display())).unwrap_or(&said))
    };
    let mut and = record(AND, true, 0, 1);
    and[6] = 1;
    let cases = [
        (selector(true, 0, 1, 2), "line 2, select (byte 22): 2 is not lower than the line"),
        (selector(true, 0, 1, 257), "line 2, select (byte 22): 257 is not lower than the line"),
        (selector(true, 0, 2, 2), "line 2, second source (byte 20): 2 is not lower than the line"),
        (selector(true, 2, 0, 2), "line 2, first source (byte 18): 2 is not lower than the line"),
        (and, "line 2, select (byte 22): 1 is not 0, and the line's kind has no select"),
    ];
    for (last, says) in cases {
        assert_eq!(check(last), (Some(1), format!("refusal 2: {says}\n")));
    }
    for select in 0..2 {
        assert_eq!(check(selector(true, 0, 1, select)), (Some(0), "lines 3, inputs 2, outputs 1\n".to_string()));
    }
}

#[test]
fn files_that_can_not_be_read() {
    let directory = Directory::new("unread");
    let absent = directory.path("absent");
    assert_eq!(check(&absent), stopped(&format!("there is no file {}", absent.display())));
    assert_eq!(check(&directory.0), stopped(&format!("{} is a directory", directory.0.display())));
    let below = directory.write("file", "").join("below");
    assert_eq!(check(&below), stopped(&format!("{} can't be read: Not a directory", below.display())));
    assert_eq!(check(Path::new("/proc/self/mem")), stopped("/proc/self/mem can't be read: Input/output error"));
    let locked = directory.write("locked", "INPUT(a)\nOUTPUT(a)\n");
    fs::set_permissions(&locked, Permissions::from_mode(0o000)).expect("a mode");
    if let Some(said) = other_user::ullimaqsu(&[Path::new("check"), &locked]) {
        assert_eq!(said, stopped(&format!("{} can't be read: Permission denied", locked.display())));
    }
    // a name is shown on one line whatever it is
    assert_eq!(check(Path::new("no\nsuch\u{1b}file")), stopped("there is no file no?such?file"));
}

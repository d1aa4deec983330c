//! What is wrong, in words, and where nothing can be printed.
use crate::harness::{example, into_broken, into_full, printed, refused, root, stopped, ullimaqsu, Directory};
use cases::circuits::{record, selector, AND, INPUT};
use std::path::Path;

#[test]
fn command_lines() {
    let misused = |says: &str| stopped(&format!("control {says}; see ullimaqsu control --help"));
    assert_eq!(ullimaqsu(&["control"]), misused("wants a circuit"));
    assert_eq!(ullimaqsu(&["control", "a", "b"]), misused("wants a circuit"));
    for option in ["-x", "--json", "--heads", "-o"] {
        assert_eq!(ullimaqsu(&["control", "a", option]), misused(&format!("has no option `{option}`")));
    }
    let near = "there is no command `controls`; the nearest name is `control`; see ullimaqsu --help";
    assert_eq!(ullimaqsu(&["controls", "a"]), stopped(near));
    let c17 = example("c17");
    assert_eq!(printed(&[Path::new("control"), Path::new("--"), &c17]), printed(&[Path::new("control"), &c17]));
}

#[test]
fn files() {
    assert_eq!(ullimaqsu(&["control", "no such circuit"]), stopped("there is no file no such circuit"));
    let directory = root().join("examples/c17");
    assert_eq!(ullimaqsu(&[Path::new("control"), &directory]), stopped(&format!("{} is a directory", directory.display())));
}

/// A text or records that are no circuit, each at its place.
#[test]
fn circuits() {
    let directory = Directory::new("refused control");
    let is = |bytes: &[u8], says: &str| {
        let path = directory.write("circuit", bytes);
        assert_eq!(ullimaqsu(&[Path::new("control"), &path]), refused(&format!("{}: {says}", path.display())));
    };
    is(b"", "there is no INPUT and no gate in this text");
    is(b"INPUT(a)\n", "there is no OUTPUT in this text");
    is(b"INPUT(a)\nOUTPUT(y)\ny = AND(a, b)\n", "line 3, column 12 (byte 30): `b` is used here and defined nowhere");
    is(
        b"INPUT(a)\nOUTPUT(q)\nq = DFF(a)\n",
        "line 3, column 5 (byte 23): after `=` there must be BUFF, NOT, AND, NAND, OR, NOR, XOR or XNOR, in capitals, and here is `D`; \
         flip-flops are read by unfold, dictionary --steps, faults and narrow alone",
    );
    let input = record(INPUT, false, 0, 0);
    is(&input[..7], "refusal 1: the circuit is not a multiple of 8 bytes, empty, or above 2,048 records");
    is(&input.repeat(2049), "refusal 1: the circuit is not a multiple of 8 bytes, empty, or above 2,048 records");
    is(&[input, record(AND, true, 0, 1)].concat(), "refusal 2: line 1, second source (byte 12): 1 is not lower than the line");
    is(&[input, selector(true, 0, 0, 9)].concat(), "refusal 2: line 1, select (byte 14): 9 is not lower than the line");
    is(&record(INPUT, true, 0, 0).repeat(65), "refusal 4: the circuit has more than 64 inputs");
    is(&input, "refusal 5: the circuit has no output");
    // nothing is written
    assert_eq!(directory.names(), ["circuit"]);
}

#[test]
fn nobody_reads() {
    let words = [Path::new("control"), &example("c17")];
    assert_eq!(into_broken(&words), (Some(141), String::new(), String::new()));
    assert_eq!(into_full(&words), stopped("standard output could not be written: No space left on device"));
}

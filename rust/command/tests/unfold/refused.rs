//! What is wrong, in words, at which line and column of the user's file.
use crate::drawn::{flip_flop, with_flip_flops};
use crate::harness::{example, refused, stopped, ullimaqsu, Directory, Said};
use cases::texts::{self, dense, statements};
use cases::{drawn, Random};
use std::fs;
use std::path::Path;

/// What is said of a text over two steps.
fn said(directory: &Directory, text: &[u8]) -> Result<String, String> {
    let file = directory.write("text.bench", text);
    let (status, printed, said) = ullimaqsu(&[Path::new("unfold"), &file, Path::new("2")]);
    let words = said.strip_prefix(&format!("ullimaqsu: {}: ", file.display())).map(str::trim_end);
    match status {
        Some(0) => Ok(printed),
        _ => {
            assert_eq!((status, printed.as_str(), said.lines().count()), (Some(1), "", 1), "{said}");
            Err(words.expect("the file").to_string())
        }
    }
}

const KINDS: &str = "BUFF, NOT, AND, NAND, OR, NOR, XOR, XNOR or DFF, in capitals";

#[test]
fn words() {
    let directory = Directory::new("refused");
    let kinds = format!("line 3, column 5 (byte 23): after `=` there must be {KINDS}, and here is ");
    let rows = [
        // the line of a flip-flop itself
        ("q = DFF(a", "line 3, column 10 (byte 28): after the only source of `DFF` there must be `)`, and here the line ends"),
        ("q = DFF(a, a)", "line 3, column 10 (byte 28): after the only source of `DFF` there must be `)`, and here is `,`"),
        ("q = DFF(a a)", "line 3, column 11 (byte 29): after the only source of `DFF` there must be `)`, and here is `a`"),
        ("q = DFF()", "line 3, column 9 (byte 27): after `(` there must be a name, and here is `)`"),
        ("q = DFF", "line 3, column 8 (byte 26): after `DFF` there must be `(`, and here the line ends"),
        ("q = DFFX(a)", "line 3, column 8 (byte 26): after `DFF` there must be `(`, and here is `X`"),
        ("q = DF(a)", "line 3, column 7 (byte 25): after `DF` there must be the rest of DFF, in capitals, and here is `(`"),
        ("q = D FF(a)", "line 3, column 6 (byte 24): after `D` there must be the rest of DFF, in capitals, and here is a blank"),
        ("q = DFF(a) b", "line 3, column 12 (byte 30): after `)` there must be the end of the line or `#`, and here is `b`"),
        ("q = DFF(a) q = DFF(a)", "line 3, column 12 (byte 30): after `)` there must be the end of the line or `#`, and here is `q`"),
        ("= DFF(a)", "line 3, column 1 (byte 19): at the beginning of a line there must be INPUT, OUTPUT, a name, `#` or the end of the line, and here is `=`"),
        ("DFF(a)", "line 3, column 4 (byte 22): after `DFF` there must be `=`, and here is `(`; only INPUT and OUTPUT, in capitals, are followed by `(`"),
        ("q DFF(a)", "line 3, column 3 (byte 21): after `q` there must be `=`, and here is `D`"),
        ("q = DFF(#a)", "line 3, column 9 (byte 27): after `(` there must be a name, and here is `#`"),
        (
            "q = DFF(abcdefghijklmnopq)",
            "line 3, column 25 (byte 43): `abcdefghijklmnop` has 16 letters, digits or underscores, and a name has no more",
        ),
        (
            "abcdefghijklmnopq = DFF(a)",
            "line 3, column 17 (byte 35): `abcdefghijklmnop` has 16 letters, digits or underscores, and a name has no more",
        ),
        ("q = DFF(b)", "line 3, column 9 (byte 27): `b` is used here and defined nowhere"),
        ("\tq\t=\tDFF\t(\tb\t)", "line 3, column 12 (byte 30): `b` is used here and defined nowhere"),
        ("q = DFF(a)\nq = DFF(a)", "line 4, column 1 (byte 30): `q` is defined here a second time, after line 3"),
        ("q = NOT(a)\n  q = DFF(a)", "line 4, column 3 (byte 32): `q` is defined here a second time, after line 3"),
        ("q = DFF(a)\nq = NOT(a)", "line 4, column 1 (byte 30): `q` is defined here a second time, after line 3"),
        ("q = DFF(a)\nINPUT( q )", "line 4, column 8 (byte 37): `q` is defined here a second time, after line 3"),
        ("a = DFF(a)", "line 3, column 1 (byte 19): `a` is defined here a second time, after line 1"),
        // other lines, behind flip-flops that are right
        ("q = DFF(a)\ny = NOT(b)", "line 4, column 9 (byte 38): `b` is used here and defined nowhere"),
        ("q  =  DFF  (  a  )  # q\r\ny = NOT(b)", "line 4, column 9 (byte 52): `b` is used here and defined nowhere"),
        ("q = DFF(a)\nOUTPUT(b)", "line 4, column 8 (byte 37): `b` is used here and defined nowhere"),
        ("q = DFF(b)\ny = NOT(c)", "line 3, column 9 (byte 27): `b` is used here and defined nowhere"),
        ("y = NOT(c)\nq = DFF(b)", "line 3, column 9 (byte 27): `c` is used here and defined nowhere"),
        ("a = NOT(a)\nq = DFF(b)", "line 3, column 1 (byte 19): `a` is defined here a second time, after line 1"),
        ("y = NOT(y)\nq = DFF(b)", "line 4, column 9 (byte 38): `b` is used here and defined nowhere"),
        ("q = DFF(a)\ny = AND(a)", "line 4, column 10 (byte 39): after the first of the two sources of `AND` there must be `,`, and here is `)`"),
        (
            "q = DFF(a)\ny = AND(a,a,a)",
            "line 4, column 12 (byte 41): after the second of the two sources of `AND` there must be `)`, and here is `,`; \
             `ullimaqsu narrow` rewrites gates of three and more sources",
        ),
        (
            "q = DFF(y)\ny = AND(q,y)\nr = DFF(a)",
            "line 4, column 1 (byte 30): gate 0, `y`, can't be placed: it depends on itself: `y` reads `y`",
        ),
        (
            "n = NOT(q)\nq = DFF(y)\ny = AND(q,z)\nr = DFF(a)\nz = OR(y,n)",
            "line 5, column 1 (byte 41): gate 1, `y`, can't be placed: it depends on itself: `y` reads `z`, which reads `y`",
        ),
    ];
    for (statements, right) in rows {
        let text = format!("INPUT(a)\nOUTPUT(a)\n{statements}\n");
        assert_eq!(said(&directory, text.as_bytes()), Err(right.to_string()), "{text}");
    }
    for (word, byte) in [("dff", "d"), ("Dff", ""), ("FF", "F"), ("LATCH", "L")] {
        let text = format!("INPUT(a)\nOUTPUT(a)\nq = {word}(a)\n");
        let right = match byte {
            "" => "line 3, column 6 (byte 24): after `D` there must be the rest of DFF, in capitals, and here is `f`".to_string(),
            byte => format!("{kinds}`{byte}`"),
        };
        assert_eq!(said(&directory, text.as_bytes()), Err(right));
    }
    assert_eq!(directory.names(), ["text.bench"]);
}

/// What a text says too little or too much of.
#[test]
fn texts_of_wrong_sizes() {
    let directory = Directory::new("wrong sizes");
    let flip_flops = |count: usize| -> String { (0..count).map(|number| format!("f{number} = DFF(f0)\n")).collect() };
    let row = |text: String, right: &str| assert_eq!(said(&directory, text.as_bytes()), Err(right.to_string()));
    row(String::new(), "there is no INPUT and no gate in this text");
    row("# q = DFF(q)\n".to_string(), "there is no INPUT and no gate in this text");
    row(flip_flops(3), "there is no OUTPUT in this text");
    row("q = DFF(a)".to_string(), "line 1, column 9 (byte 8): `a` is used here and defined nowhere");
    row(flip_flops(65) + "OUTPUT(f0)", "this circuit has 65 inputs and flip-flops, and a circuit has at most 64");
    let gates: String = (1..2049).map(|number| format!("{number}=NOT(0)\n")).collect();
    row(format!("0=DFF(1)\nOUTPUT(0)\n{gates}"), "this circuit has 2,049 inputs, flip-flops and gates, and a circuit has at most 2,048");

    let rest = b"OUTPUT(q)\nq = DFF(q)#";
    let goes_on = |line: usize, column: usize| {
        format!("line {line}, column {column} (byte 32768): a text has at most 32,768 bytes, and this one goes on")
    };
    row(String::from_utf8([&rest[..], &vec![b'-'; 32_769 - rest.len()]].concat()).expect("text"), &goes_on(2, 32_759));
    // in the midst of a flip-flop, whether its rest is read or not
    for behind in ["", "q)\n", "\n", "?", " q )"] {
        let before = "OUTPUT(q)\nq = DFF(";
        row(format!("{before}{}{behind}-----", " ".repeat(32_768 - before.len())), &goes_on(2, 32_759));
    }
    let long = "\n".repeat(32_760) + "q = DFF(q)";
    row(long, &goes_on(32_761, 9));
}

/// Over several steps.
#[test]
fn steps_that_do_not_fit() {
    let directory = Directory::new("steps");
    let row = |text: &str, steps: &str, right: &str| {
        let file = directory.write("text.bench", text);
        assert_eq!(ullimaqsu(&[Path::new("unfold"), &file, Path::new(steps)]), refused(&format!("{}: {right}", file.display())));
    };
    let inputs = |count: usize| -> String { (0..count).map(|number| format!("INPUT(i{number})\n")).collect() };
    let nine = inputs(9) + "OUTPUT(i0)\nq = DFF(i1)";
    row(&nine, "8", "over 8 steps this circuit has 73 inputs, and a circuit has at most 64; it can be unfolded over 7 at most");
    row(
        &(inputs(64) + "OUTPUT(i0)"),
        "2",
        "over 2 steps this circuit has 128 inputs, and a circuit has at most 64; it can be unfolded over 1 at most",
    );
    let gates: String = (1..300).map(|number| format!("{number} = NOT({})\n", number - 1)).collect();
    let long = format!("0 = DFF(299)\nOUTPUT(7)\n{gates}");
    row(&long, "7", "over 7 steps this circuit has 2,100 lines, and a circuit has at most 2,048; it can be unfolded over 6 at most");
    let both = format!("{}{long}", inputs(20));
    row(&both, "8", "over 8 steps this circuit has 2,560 lines, and a circuit has at most 2,048; it can be unfolded over 3 at most");
    for steps in ["0", "9", "1000", "18446744073709551615"] {
        row(&nine, steps, &format!("a circuit is unfolded over 1 to 8 steps, and {steps} are asked for"));
    }
    // what is wrong with the text comes first
    row("q = DFF(", "9", "line 1, column 9 (byte 8): after `(` there must be a name, and here the text ends");
    assert_eq!(directory.names(), ["text.bench"]);
}

fn misused(says: &str) -> Said {
    stopped(&format!("unfold {says}; see ullimaqsu unfold --help"))
}

#[test]
fn command_lines() {
    let wants = "wants a text, a number of steps, and perhaps where to write";
    assert_eq!(ullimaqsu(&["unfold"]), misused(wants));
    assert_eq!(ullimaqsu(&["unfold", "text"]), misused(wants));
    assert_eq!(ullimaqsu(&["unfold", "text", "2", "out", "more"]), misused(wants));
    for word in ["two", "", "+2", "+", "2.0", "1e1", "0x2", " 2", "18446744073709551616", "\u{e9}"] {
        assert_eq!(ullimaqsu(&["unfold", "text", word]), misused(&format!("wants a number of steps, 1 to 8, and `{word}` is none")));
    }
    assert_eq!(ullimaqsu(&["unfold", "text", "-2"]), misused("has no option `-2`"));
    assert_eq!(ullimaqsu(&["unfold", "text", "2", "--line"]), misused("has no option `--line`; the nearest name is `--lines`"));
    assert_eq!(ullimaqsu(&["unfold", "text", "2", "--json"]), misused("has no option `--json`"));
    assert_eq!(ullimaqsu(&["unfold", "no such text", "2"]), stopped("there is no file no such text"));
}

/// Of records where a text with flip-flops is read.
pub const RECORDS: &str = "these are records, and not a text in the bench notation; \
    records of clock steps are what `ullimaqsu dictionary DIR --steps K` takes, with states.rec in the directory";

/// Records are no text, and have no flip-flops.
#[test]
fn records() {
    let directory = Directory::new("records");
    assert_eq!(said(&directory, &[0, 1, 0, 0, 0, 0, 0, 0]), Err(RECORDS.to_string()));
}

/// Of a text without flip-flops the words are those of `check`, but that DFF is listed too.
#[test]
fn texts_without_flip_flops() {
    let directory = Directory::new("without");
    let (mut right, mut wrong) = (0, 0);
    let damaged = drawn(1, 120, texts::damaged).chain(drawn(2, 120, texts::misnamed)).chain(drawn(3, 40, texts::cyclic));
    for text in damaged.chain(drawn(4, 40, texts::soup)).filter(|text| !matches!(text.first(), Some(0..=9))) {
        let unfolded = said(&directory, &text);
        let (status, _, told) = ullimaqsu(&[Path::new("check"), &directory.path("text.bench")]);
        match unfolded {
            Ok(_) => assert_eq!(status, Some(0)),
            Err(words) if words.starts_with("over 2 steps") => assert_eq!(status, Some(0)),
            Err(words) => {
                let words = words.replace("XOR, XNOR or DFF", "XOR or XNOR");
                assert!(told.trim_end().ends_with(&format!(": {words}")) && status == Some(1), "{told}{words}");
                wrong += 1;
                continue;
            }
        }
        right += 1;
    }
    assert!(right > 20 && wrong > 150, "{right} {wrong}");
}

/// Where flip-flops are not read, the words say what reads them.
#[test]
fn commands_without_flip_flops() {
    let directory = Directory::new("others");
    let file = directory.write("text.bench", "INPUT(a)\nOUTPUT(q)\nq = DFF(a)\n");
    let kinds = KINDS.replace("XOR, XNOR or DFF", "XOR or XNOR");
    let says = format!(
        "{}: line 3, column 5 (byte 23): after `=` there must be {kinds}, and here is `D`; \
         flip-flops are read by unfold, dictionary --steps, faults and narrow alone",
        file.display()
    );
    assert_eq!(ullimaqsu(&[Path::new("check"), &file]), refused(&says));
    assert_eq!(ullimaqsu(&[Path::new("search"), &file, Path::new("--all")]), refused(&says));
}

/// Texts that `unfold` reads are not changed by it, and an example without flip-flops has none.
#[test]
fn texts_stay() {
    let directory = Directory::new("stays");
    let random = &mut Random::new(5);
    let plain = statements(random, 20, 6);
    let text = dense(&[with_flip_flops(random, &plain), vec![flip_flop("another", "another")]].concat());
    said(&directory, &text).expect("a right text");
    assert_eq!(fs::read(directory.path("text.bench")).expect("a text"), text);
    let c17 = fs::read(example("c17")).expect("c17");
    assert_eq!(said(&directory, &c17), Ok("lines 22, inputs 10, outputs 4\nsteps 2, lines a step 11, state lines 0\n".to_string()));
}

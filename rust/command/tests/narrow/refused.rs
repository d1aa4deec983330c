//! What is no text apart from its wide gates, and what would be too large.
use crate::harness::{after, into_broken, into_full, run, ullimaqsu, Directory};
use crate::{accepted, equations, narrow, narrowed, wide};
use cases::{drawn, Random};
use equations::Equations;
use std::fs;
use std::path::Path;

#[test]
fn words() {
    let directory = Directory::new("words");
    let rows = [
        (
            "y = AND(a)",
            "line 3, column 10 (byte 28): after the first of the two or more sources of `AND` there must be `,`, and here is `)`",
        ),
        (
            "y = xor(a)",
            "line 3, column 10 (byte 28): after the first of the two or more sources of `xor` there must be `,`, and here is `)`",
        ),
        ("y = AND()", "line 3, column 9 (byte 27): after `(` there must be a name, and here is `)`"),
        ("y = AND(a,a,)", "line 3, column 13 (byte 31): after `,` there must be a name, and here is `)`"),
        ("y = AND(a,a a)", "line 3, column 13 (byte 31): after source 2 of `AND` there must be `,` or `)`, and here is `a`"),
        ("y = AND(a,a,a", "line 3, column 14 (byte 32): after source 3 of `AND` there must be `,` or `)`, and here the line ends"),
        ("y = AND(a,a,a) b", "line 3, column 16 (byte 34): after `)` there must be the end of the line or `#`, and here is `b`"),
        ("y = NOT(a,a)", "line 3, column 10 (byte 28): after the only source of `NOT` there must be `)`, and here is `,`"),
        ("y = buf(a,a)", "line 3, column 10 (byte 28): after the only source of `buf` there must be `)`, and here is `,`"),
        ("input(a,a)", "line 3, column 8 (byte 26): after the name in `input` there must be `)`, and here is `,`"),
        ("y = DFF(a,a)", "line 3, column 10 (byte 28): after the only source of `DFF` there must be `)`, and here is `,`"),
        ("y = dfg(a)", "line 3, column 7 (byte 25): after `df` there must be the rest of DFF, and here is `g`"),
        ("z = OR(a,a,y)\ny = DFF(z_1)", "line 4, column 9 (byte 41): `z_1` is used here and defined nowhere"),
        ("z = OR(a,a,y)\ny = dff(b)", "line 4, column 9 (byte 41): `b` is used here and defined nowhere"),
        ("z = OR(a,a,y)\ny = dff(z)\ny = DFF(a)", "line 5, column 1 (byte 44): `y` is defined here a second time, after line 4"),
        (
            "z = OR(a,a,y)\ny = DFF(z)\nx = NOR(z,z,z,x)",
            "line 5, column 1 (byte 44): gate 1, `x`, can't be placed: it depends on itself: `x` reads `x`",
        ),
        (
            "y = mux(a,a,a)",
            "line 3, column 5 (byte 23): after `=` there must be BUFF, NOT, AND, NAND, OR, NOR, XOR, XNOR or DFF, and here is `m`; \
             the notation has no name for a selector, and a circuit with selectors comes as records",
        ),
        ("y = nax(a)", "line 3, column 7 (byte 25): after `na` there must be the rest of NAND, and here is `x`"),
        ("y = bu(a)", "line 3, column 7 (byte 25): after `bu` there must be the rest of BUFF, and here is `(`"),
        ("y (a)", "line 3, column 3 (byte 21): after `y` there must be `=`, and here is `(`; only INPUT and OUTPUT are followed by `(`"),
        (
            "y = AND(a,a,abcdefghijklmnopq)",
            "line 3, column 29 (byte 47): `abcdefghijklmnop` has 16 letters, digits or underscores, and a name has no more",
        ),
        ("y = AND(a,a,b)", "line 3, column 13 (byte 31): `b` is used here and defined nowhere"),
        ("y = AND(a,a,a,a)\ny = OR(a,a,a)", "line 4, column 1 (byte 36): `y` is defined here a second time, after line 3"),
        ("y = AND(a,a,a)\na = OR(a,a,a)", "line 4, column 1 (byte 34): `a` is defined here a second time, after line 1"),
        (
            "y = OR(a,a,a)\nz = AND(y,y,a,z,a)",
            "line 4, column 1 (byte 33): gate 1, `z`, can't be placed: it depends on itself: `z` reads `z`",
        ),
        (
            "y = OR(a,a,z,a)\nz = AND(y,y,a)",
            "line 3, column 1 (byte 19): gate 0, `y`, can't be placed: it depends on itself: `y` reads `z`, which reads `y`",
        ),
    ];
    for (statements, right) in rows {
        let text = format!("INPUT(a)\nOUTPUT(a)\n{statements}\n");
        assert_eq!(narrow(&directory, text.as_bytes()), Err(right.to_string()), "{text}");
    }
    let none = "there is no OUTPUT in this text";
    assert_eq!(narrow(&directory, b"INPUT(a)\ny = AND(a, a, a)"), Err(none.to_string()));
    let inputs: String = (0..65).map(|number| format!("INPUT(i{number})\n")).collect();
    let many = "this circuit has 65 inputs, and a circuit has at most 64";
    assert_eq!(narrow(&directory, format!("{inputs}OUTPUT(i1)\ny = AND(i1, i2, i3)").as_bytes()), Err(many.to_string()));
    assert_eq!(directory.names(), ["wide.bench"]);
}

/// A wide text with a name that is taken away or written over: the place is that of a name that is wrong.
#[test]
fn places_of_names() {
    let directory = Directory::new("places");
    let (mut undefined, mut twice) = (0, 0);
    let spoilt = |random: &mut Random| {
        let mut statements = wide::plain(random, &wide::MANY, 8);
        let names: Vec<(usize, usize)> = (0..statements.len())
            .flat_map(|number| {
                statements[number]
                    .iter()
                    .enumerate()
                    .filter(|(_, word)| word.starts_with('n'))
                    .map(move |(at, _)| (number, at))
                    .collect::<Vec<_>>()
            })
            .collect();
        let ((number, at), (other, from)) = (random.pick(&names), random.pick(&names));
        statements[number][at] = if random.once_in(2) { "q".to_string() } else { statements[other][from].clone() };
        cases::texts::written(random, &statements)
    };
    for text in drawn(1, 250, spoilt) {
        let Err(said) = narrow(&directory, &text) else { continue };
        let Some((place, says)) = said.split_once("): ").filter(|(_, says)| says.starts_with('`')) else { continue };
        let byte: usize = place.split_once("(byte ").expect("a byte").1.parse().expect("a number");
        let name = says.split('`').nth(1).expect("a name");
        assert!(text[byte..].starts_with(name.as_bytes()), "{said}");
        let line = 1 + text[..byte].iter().filter(|&&byte| byte == b'\n').count();
        assert!(place.starts_with(&format!("line {line}, ")), "{said}");
        let equations = Equations::read(&text);
        let defined = equations.inputs.iter().chain(equations.gates.iter().map(|gate| &gate.name)).filter(|other| *other == name).count();
        if says.ends_with("is used here and defined nowhere") {
            assert_eq!(defined, 0, "{said}");
            undefined += 1;
        } else {
            assert!(defined > 1, "{said}");
            twice += 1;
        }
    }
    assert!(undefined > 100 && twice > 10, "{undefined} {twice}");
}

/// A chain of gates of three sources with so many lines once it is narrow.
fn chain(lines: usize) -> Vec<u8> {
    let gates: String =
        (1..=(lines - 1) / 2).map(|k| format!("{k}=OR({0},{0},a)\n", if k == 1 { "a".to_string() } else { (k - 1).to_string() })).collect();
    let last = if lines.is_multiple_of(2) { "z=NOT(1)\n" } else { "" };
    format!("INPUT(a)\nOUTPUT(1)\n{gates}{last}").into_bytes()
}

#[test]
fn sizes() {
    let directory = Directory::new("sizes");
    let few = |lines| Equations::read(&narrowed(&directory, &chain(lines))).gates.len() + 1;
    assert_eq!((few(100), few(101)), (100, 101));
    let long = chain(3001);
    assert_eq!(
        narrow(&directory, &long),
        Err("with gates of two sources this circuit has 3,001 lines, and a circuit has at most 2,048".to_string())
    );

    // to the last line
    let wide = |sources: usize| format!("INPUT(a)\nOUTPUT(y)\ny=AND(a{})", ",a".repeat(sources - 1)).into_bytes();
    let said = narrow(&directory, &wide(2049)).expect_err("too many lines");
    assert_eq!(said, "with gates of two sources this circuit has 2,049 lines, and a circuit has at most 2,048");
    let said = narrow(&directory, &wide(2048)).expect_err("too many bytes");
    assert!(
        said.starts_with("with gates of two sources this text has ") && said.ends_with(" bytes, and a text has at most 32,768"),
        "{said}"
    );

    // to the last byte
    let filled = |bytes: usize| [&b"INPUT(a)\nOUTPUT(y)\ny=AND(a,a,a)#"[..], &vec![b'-'; bytes]].concat();
    let without = narrowed(&directory, &filled(0)).len();
    let full = narrowed(&directory, &filled(32_768 - without));
    assert!(full.len() == 32_768 && accepted(&full));
    let said = narrow(&directory, &filled(32_769 - without));
    assert_eq!(said, Err("with gates of two sources this text has 32,769 bytes, and a text has at most 32,768".to_string()));

    // a text may be larger than what becomes of it
    let blanks = [&b"INPUT(a)\nOUTPUT(y)\ny=AND(a,"[..], &vec![b' '; 1_000_000], b"a,a)"].concat();
    assert_eq!(narrowed(&directory, &blanks), b"INPUT(a)\nOUTPUT(y)\ny_1 = AND(a, a)\ny=AND(y_1, a)");
    let file = directory.write("wide.bench", vec![b'#'; (1 << 20) + 1]);
    let said = ullimaqsu(&[Path::new("narrow"), &file]);
    assert_eq!(said, (Some(2), String::new(), format!("ullimaqsu: {} has more than 1 MiB\n", file.display())));
    assert_eq!(directory.names(), ["wide.bench"]);
}

/// What is written takes its place as a whole, and else nothing does.
#[test]
fn files() {
    let directory = Directory::new("files");
    let file = directory.write("wide.bench", b"INPUT(a)\nOUTPUT(y)\ny=AND(a,a,a)");
    let wrong = directory.write("wrong.bench", b"y=AND(a)");
    let out = directory.write("out", b"a text of old");
    let [narrow, o] = ["narrow", "-o"].map(Path::new);
    let stays = |said: (Option<i32>, String, String), status: i32, about: &str| {
        assert_eq!((said.0, said.1.as_str()), (Some(status), ""), "{}", said.2);
        assert!(said.2.contains(about), "{}", said.2);
        assert_eq!(fs::read(&out).expect("a file"), b"a text of old");
    };
    stays(ullimaqsu(&[narrow, &wrong, o, &out]), 1, "two or more sources");
    stays(ullimaqsu(&[narrow, &directory.0.join("absent"), o, &out]), 2, "there is no file");
    stays(ullimaqsu(&[narrow, &directory.0, o, &out]), 2, "is a directory");
    stays(ullimaqsu(&[narrow, &file, o, &file]), 2, "is one of the files that are read");
    stays(ullimaqsu(&[narrow, &file, o, &directory.0]), 2, "is a directory");
    stays(ullimaqsu(&[narrow, &file, o]), 2, "-o");
    stays(ullimaqsu(&[narrow]), 2, "--help");
    stays(run(&mut after("trap '' XFSZ; ulimit -f 0", &[narrow, &file, o, &out])), 2, "could not be written");
    stays(into_full(&[narrow, &file]), 2, "standard output could not be written");
    assert_eq!(into_broken(&[narrow, &file]), (Some(141), String::new(), String::new()));
    assert_eq!(ullimaqsu(&[narrow, &file, o, &out]), (Some(0), String::new(), String::new()));
    assert_eq!(fs::read(&out).expect("a file"), b"INPUT(a)\nOUTPUT(y)\ny_1 = AND(a, a)\ny=AND(y_1, a)");
    assert_eq!(directory.names(), ["out", "wide.bench", "wrong.bench"]);
}

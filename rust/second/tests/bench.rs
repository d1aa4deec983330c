//! The second program's bench reader on cases worked by hand: request #101 and each of its readings.
use cases::circuits::{record, AND, BUFFER, INPUT, NAND, NOR, NOT, OR, XNOR, XOR};
use second::bench::{bench, bench_names, Placed, Text};
use second::{Refusal, Value};

const ROOM: usize = 16_384;

fn refused(number: u32, place: usize) -> Result<Vec<u8>, Refusal> {
    Err(Refusal { number, place })
}

fn accepted(records: &[[u8; 8]]) -> Result<Vec<u8>, Refusal> {
    Ok(records.concat())
}

/// Each text is refused with this number at its place.
fn all_refused<T: AsRef<[u8]> + std::fmt::Debug>(number: u32, texts: &[(T, usize)]) {
    for (text, place) in texts {
        assert_eq!(bench(text.as_ref(), ROOM), refused(number, *place), "{text:?}");
    }
}

const SMALL: &str = "INPUT(a)\nINPUT(b)\nOUTPUT(y)\ny = NAND(a, b)\n";

fn small() -> Result<Vec<u8>, Refusal> {
    accepted(&[record(INPUT, false, 0, 0), record(INPUT, false, 0, 0), record(NAND, true, 0, 1)])
}

#[test]
fn one_circuit_in_many_shapes() {
    for text in [
        SMALL,
        "INPUT(a)\nINPUT(b)\nOUTPUT(y)\ny = NAND(a, b)",              // no final line feed
        "INPUT(a)\r\nINPUT(b)\r\nOUTPUT(y)\r\ny = NAND(a, b)\r\n",    // CR LF
        "INPUT(a)\nINPUT(b)\nOUTPUT(y)\ny\r=\rNAND\r(\ra\r,\rb\r)\r", // a lone CR is a blank
        " \tINPUT ( a ) \n\n\n\tINPUT\t(\tb\t\r)\t# a comment\n OUTPUT ( y )\n\ty \t = \r NAND ( a , b ) ", // blanks anywhere but in a word
        "OUTPUT(y)\ny=NAND(a,b)\nINPUT(a)\nINPUT(b)",                 // any order
        "y=NAND(a,b)#y=AND(a,b)\nOUTPUT(y)\n#INPUT(c)\nINPUT(a)\nINPUT(b)", // comments
        "INPUT(a)\nINPUT(b)\nOUTPUT(y)\nOUTPUT(y)\ny=NAND(a,b)\nOUTPUT(y)", // a repeated OUTPUT counts once
    ] {
        assert_eq!(bench(text.as_bytes(), ROOM), small(), "{text:?}");
    }
}

#[test]
fn every_kind() {
    let text =
        "INPUT(a)\nINPUT(b)\n1=BUFF(a)\n2=NOT(b)\n3=AND(b,a)\n4=NAND(1,2)\n5=OR(a,a)\n6=NOR(3,b)\n7=XOR(4,6)\n8=XNOR(7,5)\nOUTPUT(8)";
    let records = [
        record(INPUT, false, 0, 0),
        record(INPUT, false, 0, 0),
        record(BUFFER, false, 0, 0),
        record(NOT, false, 1, 0),
        record(AND, false, 1, 0),
        record(NAND, false, 2, 3),
        record(OR, false, 0, 0),
        record(NOR, false, 4, 1),
        record(XOR, false, 5, 7),
        record(XNOR, true, 8, 6),
    ];
    assert_eq!(bench(text.as_bytes(), ROOM), accepted(&records));
}

/// Reading 5: the first byte that can't go on.
#[test]
fn bytes_that_cannot_go_on() {
    all_refused(
        14,
        &[
            ("input(a)", 5), // ( after a first word other than INPUT or OUTPUT
            ("a(b)", 1),
            ("INPUTS(a)", 6),
            ("INPUT (a)#\na (b)", 13),
            ("a # b", 2), // # or a line feed inside a statement
            ("a = # b", 4),
            ("INPUT(#a)", 6),
            ("INPUT\n(a)", 5),
            ("y = AND(a,\nb)", 10),
            ("y = AND(a, b\n)", 12),
            ("y =\nAND(a, b)", 3),
            ("y = NA ND(a, b)", 6), // a blank inside a kind's name
            ("y = X\tOR(a, b)", 5),
            ("INP UT(a)", 4),                   // INP is a name, so = must follow
            ("abcdefghijklmnopq = NOT(a)", 16), // the 17th character of a name
            ("INPUT(abcdefghijklmnopq)", 22),
            ("OUTPUT ( abcdefghijklmnopq)", 25),
            ("y = NOT(abcdefghijklmnopq)", 24),
            ("y = AND(a, abcdefghijklmnopq)", 27),
            ("y = BUFF(a, b)", 10), // , after one argument of BUFF or NOT
            ("y = NOT(a , b)", 10),
            ("y = AND(a)", 9), // ) after one argument of the others
            ("y = NAND(a)", 10),
            ("y = OR(a )", 9),
            ("y = NOR(a)", 9),
            ("y = XOR(a)", 9),
            ("y = XNOR(a)", 10),
            ("y = AND(a, b, c)", 12),
            ("y = and(a, b)", 4), // the first character that leaves every kind's name
            ("y = BUF(a)", 7),
            ("y = NAOT(a)", 6),
            ("y = XAND(a, b)", 5),
            ("y = ANDY(a, b)", 7),
            ("y = NOTE(a)", 7),
            ("y = INPUT(a)", 4),
            ("y = DFF(a)", 4),
            ("y = NOT(a) b", 11),
            ("INPUT(a) INPUT(b)", 9),
            ("INPUT(a))", 8),
            ("INPUT()", 6),
            ("INPUT(a b)", 8),
            ("INPUT(a,b)", 7),
            ("y == NOT(a)", 3),
            ("= NOT(a)", 0),
            ("(a)", 0),
            ("INPUT(a)\n)", 9),
            ("a-b = NOT(a)", 1),
            ("y = NOT(a.b)", 9),
        ],
    );
}

/// A text that ends early: its length.
#[test]
fn early_ends() {
    let statement = "  y = XNOR ( a , b";
    let early: Vec<_> = (3..=statement.len()).map(|len| (&statement[..len], len)).collect();
    all_refused(14, &early);
    all_refused(14, &[("I", 1), ("INPUT", 5), ("INPUT(", 6), ("INPUT(a", 7), ("INPUT(a)\nx", 10), ("abcdefghijklmnop", 16)]);
}

/// Reading 6: byte 32,768 never goes on, whatever it is, and nothing looks ahead to it.
#[test]
fn sizes() {
    let comment = |len: usize| [SMALL.as_bytes(), b"#", &vec![b'x'; len - SMALL.len() - 1]].concat();
    assert_eq!(bench(&comment(32_767), ROOM), small());
    assert_eq!(bench(&comment(32_768), ROOM), small());
    assert_eq!(bench(&comment(32_769), ROOM), refused(14, 32_768));
    assert_eq!(bench(&comment(100_000), ROOM), refused(14, 32_768));
    let blank = |len: usize, end: &str| [SMALL.as_bytes(), &vec![b' '; len - SMALL.len() - end.len()], end.as_bytes()].concat();
    assert_eq!(bench(&blank(32_769, "\n"), ROOM), refused(14, 32_768));
    assert_eq!(bench(&blank(32_770, "x=N"), ROOM), refused(14, 32_768));
    assert_eq!(bench(&blank(32_768, "x=N"), ROOM), refused(14, 32_768)); // ends early, at the same place
    assert_eq!(bench(&blank(32_767, "x=N"), ROOM), refused(14, 32_767));
    assert_eq!(bench(&blank(32_769, "(x"), ROOM), refused(14, 32_767));
    assert_eq!(bench(&blank(32_768, "x=NOT(a)"), ROOM).map(|records| records.len()), Ok(32));
}

/// Reading 7: any word is a name, and what follows the first word decides.
#[test]
fn keywords_are_names() {
    let text = "INPUT(INPUT)\nOUTPUT(OUTPUT)\nOUTPUT = NOT(NAND)\nNAND = NAND(INPUT, AND)\nAND = BUFF(INPUT)";
    let records = [record(INPUT, false, 0, 0), record(BUFFER, false, 0, 0), record(NAND, false, 0, 1), record(NOT, true, 2, 0)];
    assert_eq!(bench(text.as_bytes(), ROOM), accepted(&records));
    assert_eq!(
        bench(b"INPUT(OUTPUT)\nOUTPUT(INPUT)\nINPUT = NOT(OUTPUT)", ROOM),
        accepted(&[record(INPUT, false, 0, 0), record(NOT, true, 0, 0)])
    );
    let names = "INPUT(_)\nOUTPUT(0)\n0=NOT(abcdefghijklmnop)\nabcdefghijklmnop=NOT(_)";
    assert_eq!(bench(names.as_bytes(), ROOM), accepted(&[record(INPUT, false, 0, 0), record(NOT, false, 0, 0), record(NOT, true, 1, 0)]));
}

/// Reading 8: comments hold any byte but a line feed, and other control bytes are no blanks.
#[test]
fn comments_and_control_bytes() {
    let any: Vec<u8> = (0..=255).filter(|&byte| byte != b'\n').collect();
    assert_eq!(bench(&[SMALL.as_bytes(), b"#", &any, b"\n#", &any].concat(), ROOM), small());
    let taken: Vec<u8> = (0..=255).filter(|&byte| bench(&[SMALL.as_bytes(), &[byte]].concat(), ROOM) == small()).collect();
    assert_eq!(taken, [b'\t', b'\n', b'\r', b' ', b'#']);
    all_refused(
        14,
        &[(&b"INPUT\x0b(a)"[..], 5), (b"INPUT(a)\x0c", 8), (b"INPUT(a\0)", 7), (b"INPUT(a\xe9)", 7), (b"\xef\xbb\xbfINPUT(a)", 0)],
    );
    all_refused(1, &[("", 0), ("\n", 0), (" \r\n\t", 0), ("# nothing", 0)]);
}

/// Reading 9: the first byte of the name, the lowest of all that are wrong.
#[test]
fn undefined_and_second_names() {
    all_refused(
        15,
        &[
            ("INPUT(a)\nINPUT( a)", 16), // a second definition
            ("INPUT(a)\nINPUT(b)\nOUTPUT(b)\na = NOT(b)", 28),
            ("y = NOT(a)\nOUTPUT(y)\nINPUT(a)\n  y = NOT(a)", 32),
            ("INPUT(a)\nOUTPUT(c)", 16), // undefined
            ("OUTPUT(a)\nINPUT(A)", 7),
            ("INPUT(a)\nOUTPUT(y)\ny = AND(a, b)", 30),
            ("INPUT(a)\nOUTPUT(y)\ny = AND(b, c)", 27),
            ("INPUT(a)\nOUTPUT(ab)\nabc = BUFF(a)", 16), // a part of a name is another name
            ("INPUT(a)\nINPUT(a)\nOUTPUT(c)", 15),       // the lowest
            ("OUTPUT(c)\nINPUT(a)\nINPUT(a)", 7),
            ("y = AND(c, y)\nINPUT(a)\nINPUT(a)\nOUTPUT(y)", 8), // before the cycle
            ("INPUT(a)\nINPUT(b)\nINPUT(a)\nINPUT(b)\nINPUT(a)", 24),
            ("a = NOT(a)\na = NOT(a)", 11),
        ],
    );
}

/// Reading 9: gates alone are counted, and one behind a cycle can't be placed either.
#[test]
fn cycles() {
    all_refused(
        16,
        &[
            ("INPUT(a)\nOUTPUT(y)\ny = AND(a, y)", 0), // a self-loop
            ("INPUT(a)\nx = NOT(a)\nOUTPUT(y)\ny = AND(a, y)", 1),
            ("x = NOT(y)\ny = NOT(x)\nOUTPUT(y)", 0), // no input at all
            ("z = NOT(a)\nINPUT(a)\nq = BUFF(x)\nx = NOT(y)\ny = AND(x, z)\nOUTPUT(y)", 1), // q is behind the cycle
            ("z = NOT(a)\nINPUT(a)\nx = NOT(y)\ny = AND(x, z)\nq = BUFF(x)\nOUTPUT(y)", 1),
            ("INPUT(a)\nx = NOT(x)", 0), // before refusal 5
        ],
    );
    // a cycle that looks like one by words alone
    assert_eq!(bench(b"INPUT(a)\nOUTPUT(a)\nx = AND(a, a)", ROOM).map(|records| records.len()), Ok(16));
}

/// Always the earliest gate in the text whose sources are placed.
#[test]
fn order() {
    let text = "c = NOT(b)\nINPUT(z)\nb = NOT(a)\nOUTPUT(c)\nINPUT(a)\nd = NOT(a)\ne = AND(d, c)\nOUTPUT(z)";
    // z, a; then b, then c, which is earlier than d, then d, e
    let records = [
        record(INPUT, true, 0, 0),
        record(INPUT, false, 0, 0),
        record(NOT, false, 1, 0),
        record(NOT, true, 2, 0),
        record(NOT, false, 1, 0),
        record(AND, false, 4, 3),
    ];
    assert_eq!(bench(text.as_bytes(), ROOM), accepted(&records));
    // four gates that wait for the last one: it comes first, then they in their own order
    let text = "p=NOT(t)\nq=NOT(p)\nr=AND(p,t)\ns=OR(t,t)\nt=BUFF(i)\nINPUT(i)\nOUTPUT(q)";
    let records = [
        record(INPUT, false, 0, 0),
        record(BUFFER, false, 0, 0),
        record(NOT, false, 1, 0),
        record(NOT, true, 2, 0),
        record(AND, false, 2, 1),
        record(OR, false, 1, 1),
    ];
    assert_eq!(bench(text.as_bytes(), ROOM), accepted(&records));
}

fn inputs(count: usize) -> String {
    (0..count).map(|input| format!("INPUT(i{input})\n")).collect()
}

/// A chain of so many lines, the input last.
fn backwards(lines: usize) -> String {
    (1..lines).rev().map(|line| format!("g{line}=NOT(g{})\n", line - 1)).collect::<String>() + &format!("INPUT(g0)\nOUTPUT(g{})", lines - 1)
}

/// Refusals on the records, and the buffer last.
#[test]
fn records_and_buffer() {
    let with_output = |count| inputs(count) + "OUTPUT(i0)";
    assert_eq!(bench(with_output(64).as_bytes(), ROOM).map(|records| records.len()), Ok(512));
    all_refused(4, &[(with_output(65), 0), (inputs(65), 0)]);
    all_refused(5, &[(inputs(64), 0), ("INPUT(a)\ny = NOT(a)".to_string(), 0)]);
    assert_eq!(bench(backwards(2048).as_bytes(), ROOM).map(|records| records.len()), Ok(ROOM));
    all_refused(1, &[(backwards(2049), 0), (inputs(65) + &backwards(1985), 0)]);
    for room in [0, 8, 16_383, 16_385, 32_768] {
        assert_eq!(bench(SMALL.as_bytes(), room), refused(10, 0));
        assert_eq!(bench(with_output(65).as_bytes(), room), refused(4, 0));
        assert_eq!(bench(b"", room), refused(1, 0));
        assert_eq!(bench(b"INPUT(a)\nx = NOT(x)", room), refused(16, 0));
    }
}

/// The first byte of each line's name where it is defined, in the order of the lines.
#[test]
fn names() {
    for (text, places) in [
        ("INPUT(a)\nOUTPUT(a)", &[6][..]),
        ("OUTPUT(a)\nINPUT(a)", &[16]),
        (SMALL, &[6, 15, 28]),
        ("y=NAND(a,b)#INPUT(b)\r\nOUTPUT(y)\r\n \tINPUT ( a )\r\nINPUT\t(\r b)", &[43, 57, 0]), // comments, CR LF and blanks
        ("a1=NOT(a)\n  a\t= NOT(aa)\nOUTPUT(a)\nINPUT(aa)", &[40, 12, 0]), // names in names, and before their definitions
        ("c=NOT(b)\nINPUT(z)\nb=NOT(a)\nOUTPUT(c)\nINPUT(a)\nd=NOT(a)\ne=AND(d,c)", &[15, 43, 18, 0, 46, 55]), // z, a; b, c, d, e
        ("INPUT(INPUT)\nOUTPUT(OUTPUT)\nOUTPUT = NOT(NAND)\nNAND = NAND(INPUT, AND)\nAND = BUFF(INPUT)", &[6, 71, 47, 28]), // keywords
    ] {
        assert_eq!(bench_names(text.as_bytes(), 2_048), Ok(places.to_vec()), "{text:?}");
    }
    for room in [0, 3, 2_047, 2_049, 16_384] {
        for (text, number, place) in
            [(SMALL, 10, 0), ("INPUT(a)(", 14, 8), ("OUTPUT(a)", 15, 7), ("a=NOT(a)", 16, 0), ("", 1, 0), ("INPUT(a)", 5, 0)]
        {
            assert_eq!(bench_names(text.as_bytes(), room), Err(Refusal { number, place }), "{text:?}");
        }
        assert_eq!(bench_names(inputs(65).as_bytes(), room), Err(Refusal { number: 4, place: 0 }));
    }
}

/// Values straight from the equations, by name, and those of the lines.
#[test]
fn values() {
    let text = "s = XOR(a, b)\nc = AND(a, b)\nINPUT(a)\nINPUT(b)\nOUTPUT(c)\nOUTPUT(s)\nn = NOR(s, c)";
    let read = Text::read(text.as_bytes()).expect("right in syntax");
    let Placed { circuit, line_of, .. } = read.place().expect("no cycle");
    let (no, yes, x): (Value, Value, Value) = (Some(false), Some(true), None);
    for (a, b, sum, carry, none) in
        [(no, no, no, no, yes), (yes, no, yes, no, no), (yes, yes, no, yes, no), (no, x, x, no, x), (x, x, x, x, x)]
    {
        let named = read.values(&[a, b]);
        assert_eq!([named[&b"s"[..]], named[&b"c"[..]], named[&b"n"[..]]], [sum, carry, none]);
        let by_line = circuit.values(&[a, b], None);
        assert!(named.iter().all(|(name, value)| by_line[line_of[name]] == *value));
    }
}

//! `ullimaqsu control`: how hard each line is to set, every byte of it.
mod chances;
#[path = "../harness/mod.rs"]
mod harness;
mod refused;
mod wrong;

use cases::circuits::{self, AND, BUFFER};
use cases::control::{at_the_end, chain, every, Counted};
use cases::texts::{self, dense, of_records};
use cases::{drawn, Random};
use chances::{rows, Row, RIGHT};
use harness::heads::bushy;
use harness::named::Named;
use harness::{example, examples, printed, selectors, Directory};
use std::path::{Path, PathBuf};

/// What is printed for a circuit.
fn control(path: &Path) -> String {
    printed(&[Path::new("control"), path])
}

/// A chance as it is shown.
fn shown(halvings: u32) -> String {
    match halvings {
        0 => "1".to_string(),
        _ => format!("2^-{halvings}"),
    }
}

const FOOT: &str = "2^-500 stands for every smaller chance too\n";

/// The table of these rows.
fn table(rows: &[Row]) -> String {
    let width = rows.iter().map(|row| row.line.len()).max().unwrap_or(0).max("line".len());
    let row = |row: &Row| format!("{:width$} {:11} {}\n", row.line, shown(row.one), shown(row.zero));
    let foot = if rows.iter().any(|row| row.hardness().0 == 500) { FOOT } else { "" };
    format!("{:width$} chance of 1 chance of 0\n{}{foot}", "line", rows.iter().map(row).collect::<String>())
}

/// The same rows, the hardest last: by the harder value, then by the other, then as they stood.
fn sorted(mut rows: Vec<Row>) -> Vec<Row> {
    rows.sort_by_key(Row::hardness);
    rows
}

fn right(named: &Named) -> String {
    table(&sorted(rows(named, RIGHT)))
}

#[test]
fn by_hand() {
    let c17 = "\
line chance of 1 chance of 0
1    1           1
2    1           1
3    1           1
6    1           1
7    1           1
10   1           2^-1
11   1           2^-1
16   1           2^-1
19   1           2^-1
22   2^-1        2^-1
23   2^-1        2^-1
";
    assert_eq!(control(&example("c17")), c17);
    // the head lines branch, and no line before them does
    let trees = control(&example("trees"));
    let (easy, hard): (Vec<_>, Vec<_>) = trees.lines().skip(1).partition(|row| row.ends_with(" 1           1"));
    assert_eq!((easy.len(), hard.len()), (125, 6));
    let last = "\
not_all 2^-1        2^-1
first   2^-2        2^-1
second  2^-2        2^-1
bridge  2^-2        2^-1
chosen  2^-2        2^-2
y       2^-2        2^-3
";
    assert!(trees.ends_with(last), "{trees}");
    // one line is the select of 6 and of 7, and branches
    let selector = "\
line chance of 1 chance of 0
0    1           1
1    1           1
2    1           1
3    1           1
4    1           1
5    1           1
6    2^-1        2^-1
7    2^-1        2^-1
8    2^-1        2^-1
";
    assert_eq!(control(&selectors("circuit")), selector);
}

/// Where the harder values are equal the other one counts, and then the order of the lines, whatever they are called.
#[test]
fn equal_rows() {
    let directory = Directory::new("equal rows");
    let inputs = "INPUT(z)\nINPUT(y)\nINPUT(x)\nINPUT(w)\nOUTPUT(a)\n";
    let gates = "d = NOT(z)\nc = AND(z, y)\nb = NAND(z, x)\na = OR(z, w)\n";
    let right = "\
line chance of 1 chance of 0
z    1           1
y    1           1
x    1           1
w    1           1
c    2^-1        1
b    1           2^-1
a    1           2^-1
d    2^-1        2^-1
";
    assert_eq!(control(&directory.write("text", format!("{inputs}{gates}"))), right);
}

/// Words of the notation, numbers, and as many letters as a name may have.
#[test]
fn odd_names() {
    let directory = Directory::new("odd names");
    let text =
        "OUTPUT(_)\r\nINPUT( INPUT )\nINPUT(0)\n sixteen_letters_ = XOR(INPUT, 0) # AND\nAND = NOR(0, 0)\n_ = XNOR(AND, sixteen_letters_)";
    let right = "\
line             chance of 1 chance of 0
INPUT            1           1
0                1           1
sixteen_letters_ 2^-1        2^-1
AND              2^-2        2^-1
_                2^-2        2^-2
";
    assert_eq!(control(&directory.write("text", text)), right);
}

/// Every power from 1 to 2^-500, in the order of the exponents as numbers; the last line comes with 2^-500, and no sooner.
#[test]
fn the_floor() {
    let directory = Directory::new("floor");
    // each pair of lines has one halving more than the one before, and the last line has what the last pair has
    for (pairs, foot) in [(499, ""), (500, FOOT), (501, FOOT), (700, FOOT)] {
        let both = |line: u32| shown(line.div_ceil(2).min(pairs).min(500));
        let row = |line: u32| format!("{line:<4} {:11} {}\n", both(line), both(line));
        let right = format!("line chance of 1 chance of 0\n{}{foot}", (0..2 * pairs + 2).map(row).collect::<String>());
        assert_eq!(control(&directory.write("pairs", at_the_end(BUFFER, pairs))), right);
    }
    // a chain of ANDs, each of which reads the line before it with both pins: the chance of 1 alone comes to the floor
    let row = |(line, one): (u32, u32)| format!("g{line:<3} {:11} {}\n", shown(one), shown(line));
    let rows: Vec<String> = (0..).zip([0, 2, 6, 14, 30, 62, 126, 254, 500, 500]).map(row).collect();
    for (lines, foot) in [(8, ""), (9, FOOT), (10, FOOT)] {
        let path = directory.write("ands", dense(&of_records(&chain(AND, lines), 'g')));
        assert_eq!(control(&path), format!("line chance of 1 chance of 0\n{}{foot}", rows[..lines].concat()));
    }
}

/// The rows of lines whose halvings are counted by hand.
#[test]
fn counted_by_hand() {
    let directory = Directory::new("counted");
    for Counted { name, circuit, halvings } in every() {
        let table = control(&directory.write("counted", &circuit));
        for (line, [one, zero]) in (circuit.len() / 8 - halvings.len()..).zip(halvings) {
            let cells = [line.to_string(), shown(one), shown(zero)];
            assert!(table.lines().any(|row| row.split_whitespace().eq(&cells)), "{name}, line {line}: {table}");
        }
    }
}

/// Long and narrow, so that chances become small.
fn deep(random: &mut Random) -> Vec<u8> {
    let (lines, inputs) = (100 + random.below(300), 1 + random.below(4));
    circuits::circuit(random, lines, inputs)
}

/// So many circuits of each sort, texts and records.
fn all(directory: &Directory, count: usize) -> impl Iterator<Item = (PathBuf, Named)> + '_ {
    let texts = drawn(1, count, texts::small).chain(drawn(2, count, |random: &mut Random| bushy(random, 64)));
    let records = drawn(3, count, circuits::small).chain(drawn(4, count, deep));
    let written = |bytes: Vec<u8>| {
        let path = directory.write("circuit", bytes);
        (path.clone(), Named::of_file(&path))
    };
    texts.chain(records).map(written)
}

#[test]
fn drawn_circuits() {
    let directory = Directory::new("drawn control");
    let (mut floors, mut powers, mut equal) = (0, 0, 0);
    for (path, named) in all(&directory, 100) {
        assert_eq!(control(&path), right(&named));
        let rows = sorted(rows(&named, RIGHT));
        floors += usize::from(rows.iter().any(|row| row.hardness().0 == 500));
        powers += usize::from(rows.iter().any(|row| (10..500).contains(&row.one)));
        equal += usize::from(rows.windows(2).any(|two| two[0].one == two[1].zero && two[0].zero == two[1].one && two[0].one > 0));
    }
    assert!([floors, powers, equal].iter().all(|&times| times > 30), "{floors} {powers} {equal}");
    println!("control: 400 circuits, {floors} with chances that are 2^-500");
}

#[test]
fn the_examples_and_the_largest() {
    examples().iter().for_each(|path| assert_eq!(control(path), right(&Named::of_file(path)), "{}", path.display()));
    let (directory, random) = (Directory::new("largest control"), &mut Random::new(5));
    for bytes in [texts::largest(random, 2048, 64), circuits::circuit(random, 2048, 64), circuits::circuit(random, 1, 1)] {
        let path = directory.write("circuit", bytes);
        assert_eq!(control(&path), right(&Named::of_file(&path)));
    }
}

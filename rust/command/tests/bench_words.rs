//! What `ullimaqsu bench` writes and says is the second program's, and its words about a refusal agree with the place, with the grammar and with
//! the text.
mod harness;

use cases::{drawn, texts, Random, Tally};
use harness::{root, Directory, COMMAND};
use second::bench::{parse, Text};
use second::Refusal;
use std::process::Command;
use std::{fs, thread};

fn text(bytes: &[u8]) -> String {
    String::from_utf8(bytes.to_vec()).expect("text")
}

/// Line and column of a byte, from 1, and the byte, as they are printed.
fn place(text: &[u8], byte: usize) -> String {
    let before = &text[..byte];
    let line = 1 + before.iter().filter(|&&byte| byte == b'\n').count();
    let column = 1 + before.iter().rev().take_while(|&&byte| byte != b'\n').count();
    format!("line {line}, column {column} (byte {byte}): ")
}

/// The bytes with which each thing begins that the words say must follow.
fn beginnings(text: &[u8], said: &str) -> Vec<u8> {
    let word = text.iter().rev().take_while(|byte| byte.is_ascii_alphanumeric() || **byte == b'_').count();
    let rest = said.strip_prefix("the rest of ");
    let listed = rest.unwrap_or(said).trim_end_matches(", in capitals").replace(" or ", ", ");
    let of = |item: &str| match item {
        "a name" => (0..=255u8).filter(|byte| byte.is_ascii_alphanumeric() || *byte == b'_').collect(),
        "the end of the line" => vec![b'\n'],
        sign if sign.starts_with('`') => vec![sign.as_bytes()[1]],
        keyword => vec![keyword.as_bytes()[if rest.is_some() { word } else { 0 }]],
    };
    listed.split(", ").flat_map(of).collect()
}

/// Refusal 14: at the place nothing goes on but what the words list, a blank, or more of a word of fewer than 16 letters.
fn check_syntax(text: &[u8], place: usize, words: &str) {
    if place == texts::MOST && text.len() > texts::MOST {
        return assert_eq!(words, "a text has at most 32,768 bytes, and this one goes on");
    }
    let before = &text[..place];
    let goes_on = |byte: u8| parse(&[before, &[byte]].concat()).map_or_else(|stuck| stuck > place, |_| true);
    let bytes: Vec<u8> = (0..=255).filter(|&byte| goes_on(byte)).collect();
    let (listed, found) = match words.split_once(" there must be ") {
        None => {
            let name = words
                .strip_prefix('`')
                .and_then(|words| words.strip_suffix("` has 16 letters, digits or underscores, and a name has no more"));
            assert!(name.is_some_and(|name| name.len() == 16 && before.ends_with(name.as_bytes())), "{words}");
            assert!(text[place].is_ascii_alphanumeric() || text[place] == b'_');
            return;
        }
        Some((_, rest)) => rest.split_once(", and here ").expect("what is there"),
    };
    let listed = beginnings(before, listed);
    let in_a_word = before.last().is_some_and(|byte| byte.is_ascii_alphanumeric() || *byte == b'_');
    let blank_or_more = |byte: u8| b" \t\r".contains(&byte) || in_a_word && (byte.is_ascii_alphanumeric() || byte == b'_');
    assert!(listed.iter().all(|byte| bytes.contains(byte)), "{words}: {text:?}");
    assert!(bytes.iter().all(|&byte| listed.contains(&byte) || blank_or_more(byte)), "{words}: {text:?}");
    let (found, hint) = found.split_once("; ").unwrap_or((found, ""));
    assert_eq!(hint, hint_at(text, place, &listed), "{words}: {text:?}");
    match text.get(place) {
        None => assert_eq!(found, "the text ends"),
        Some(b'\n') => assert_eq!(found, "the line ends"),
        Some(b' ' | b'\t' | b'\r') => assert_eq!(found, "is a blank"),
        Some(byte) if byte.is_ascii_graphic() => assert!(found.starts_with(&format!("is `{}`", char::from(*byte))), "{words}"),
        Some(byte) => assert_eq!(found, format!("is byte {byte}")),
    }
}

const NO_SELECTOR: &str = "the notation has no name for a selector, and a circuit with selectors comes as records";

/// What helps: `narrow` where a gate of two sources has a third, capitals where a keyword that takes brackets has none, and records where the kind
/// is a selector.
fn hint_at(text: &[u8], place: usize, listed: &[u8]) -> &'static str {
    let (before, behind) = text.split_at(place);
    let second = before.iter().rev().find(|&&byte| byte == b'(' || byte == b',') == Some(&b',');
    match (listed, behind) {
        (b")", [b',', ..]) if second => "`ullimaqsu narrow` rewrites gates of three and more sources",
        (b"=", [b'(', ..]) => "only INPUT and OUTPUT, in capitals, are followed by `(`",
        (b"BNANONXX", _) if is_selector(behind) => NO_SELECTOR,
        _ => "",
    }
}

/// Whether it begins with a word for a selector.
fn is_selector(text: &[u8]) -> bool {
    let word = text.iter().take_while(|byte| byte.is_ascii_alphanumeric() || **byte == b'_');
    ["selector", "sel", "mux"].contains(&word.map(|&byte| char::from(byte).to_ascii_lowercase()).collect::<String>().as_str())
}

/// Refusal 15: the name, and whether it is used or defined there.
fn check_name(text: &[u8], place: usize, words: &str) {
    let name: String =
        text[place..].iter().map(|&byte| char::from(byte)).take_while(|letter| letter.is_ascii_alphanumeric() || *letter == '_').collect();
    let read = Text::read(text).expect("right in syntax");
    let gates = read.equations.iter().map(|(word, _)| word);
    let first = read.inputs.iter().chain(gates).filter(|word| word.name == name.as_bytes()).map(|word| word.at).min();
    let expected = match first {
        None => format!("`{name}` is used here and defined nowhere"),
        Some(first) => {
            let line = 1 + text[..first].iter().filter(|&&byte| byte == b'\n').count();
            format!("`{name}` is defined here a second time, after line {line}")
        }
    };
    assert_eq!(words, expected);
}

/// Refusal 16: the gate, and a loop that is one, through it if there is one.
fn check_cycle(text: &[u8], gate: usize, words: &str) {
    let read = Text::read(text).expect("right in syntax");
    let sources = |name: &[u8]| {
        let equation = read.equations.iter().find(|(word, _)| word.name == name);
        equation.map_or(vec![], |(_, gate)| gate.sources().iter().map(|word| word.name).collect())
    };
    let name = read.equations[gate].0.name;
    let (mut depends_on, mut waiting) = (vec![], vec![name]);
    while let Some(next) = waiting.pop() {
        let new: Vec<&[u8]> = sources(next).into_iter().filter(|source| !depends_on.contains(source)).collect();
        waiting.extend(&new);
        depends_on.extend(new);
    }
    let rest = words.strip_prefix(&format!("gate {gate}, `{}`, can't be placed: it ", String::from_utf8_lossy(name))).expect("the gate");
    let (before, round) = rest.split_once("depends on itself: ").expect("a loop");
    let names: Vec<&[u8]> = round.split('`').skip(1).step_by(2).map(str::as_bytes).collect();
    let told = if round.contains(", and so on, ") { names.len() - 1 } else { names.len() };
    assert!(names[..told].windows(2).all(|pair| sources(pair[0]).contains(&pair[1])), "{words}");
    assert_eq!(names[0], names[names.len() - 1], "{words}");
    let itself = depends_on.contains(&name);
    assert_eq!((before.is_empty(), names[0] == name), (itself, itself), "{words}");
    assert!(itself || depends_on.contains(&names[0]), "{words}");
}

/// Refusals 1, 4 and 5: what the text lacks, or has too much of.
fn check_size(text: &[u8], number: u32, words: &str) {
    let Text { inputs, equations, .. } = Text::read(text).expect("right in syntax");
    let lines = inputs.len() + equations.len();
    let says = match number {
        1 if lines == 0 => "there is no INPUT and no gate in this text".to_string(),
        1 => format!("this circuit has {},{:03} inputs and gates, and a circuit has at most 2,048", lines / 1000, lines % 1000),
        4 => format!("this circuit has {} inputs, and a circuit has at most 64", inputs.len()),
        5 => "there is no OUTPUT in this text".to_string(),
        other => panic!("refusal {other} is none of a text"),
    };
    assert_eq!(words, says);
}

/// Runs the reader on a text where records stand already, and holds all that it does to the second program. The number of the refusal.
fn check(directory: &Directory, bytes: &[u8]) -> u32 {
    let (file, records) = (directory.write("text.bench", bytes), directory.write("old.rec", b"records of old"));
    let output = Command::new(COMMAND).arg("bench").args([&file, &records]).output().expect("it starts");
    let (printed, said) = (text(&output.stdout), text(&output.stderr));
    let written = fs::read(&records).expect("records");
    assert_eq!(directory.names(), ["old.rec", "text.bench"]);
    match second::bench(bytes, 16_384) {
        Ok(right) => {
            let counts = second::check(&right).expect("sound");
            assert_eq!(printed, format!("lines {}, inputs {}, outputs {}\n", counts.lines, counts.inputs, counts.outputs));
            assert_eq!((output.status.code(), written, said.as_str()), (Some(0), right, ""));
            0
        }
        Err(Refusal { number, place: at }) => {
            assert_eq!(printed, format!("refused {number} {at}\n"));
            let words = said.strip_prefix(&format!("ullimaqsu: {}: ", file.display())).expect("the file");
            let words = words.strip_suffix('\n').expect("a line");
            assert_eq!((output.status.code(), &written[..]), (Some(1), &b"records of old"[..]));
            let records = matches!(bytes, [0..9, ..] | [9, 0..9, ..]);
            assert_eq!(words == "these are records, and not a text in the bench notation", records, "{words}: {bytes:?}");
            if records {
                return number;
            }
            let byte = match number {
                14 | 15 => Some(at),
                16 => Some(Text::read(bytes).expect("right in syntax").equations[at].0.at),
                _ => None,
            };
            let words = match byte {
                Some(byte) => words.strip_prefix(&place(bytes, byte)).unwrap_or_else(|| panic!("{words}: {bytes:?}")),
                None => words,
            };
            match number {
                14 => check_syntax(bytes, at, words),
                15 => check_name(bytes, at, words),
                16 => check_cycle(bytes, at, words),
                _ => check_size(bytes, number, words),
            }
            number
        }
    }
}

fn check_all(name: &str, texts: Vec<Vec<u8>>) -> Vec<u32> {
    let share = texts.len().div_ceil(thread::available_parallelism().map_or(1, |count| count.get()));
    let mut tally = Tally::default();
    let numbers: Vec<u32> = thread::scope(|scope| {
        let part = |(number, part): (usize, &'_ [Vec<u8>])| {
            let directory = Directory::new(&format!("{name}-{number}"));
            part.iter().map(|text| check(&directory, text)).collect::<Vec<u32>>()
        };
        let threads: Vec<_> = texts.chunks(share).enumerate().map(|some| scope.spawn(move || part(some))).collect();
        threads.into_iter().flat_map(|thread| thread.join().expect("no difference")).collect()
    });
    numbers.into_iter().for_each(|number| tally.count(number));
    println!("bench, {name}: {tally}");
    tally.seen()
}

#[test]
fn drawn_files() {
    assert_eq!(check_all("sound", drawn(1, 30, texts::small).collect()), [0]);
    assert_eq!(check_all("damaged", drawn(2, 200, texts::damaged).chain(drawn(3, 60, texts::soup)).collect()), [0, 1, 5, 14, 15]);
    assert_eq!(check_all("other-names", drawn(4, 100, texts::misnamed).chain(drawn(5, 50, texts::cyclic)).collect()), [0, 5, 15, 16]);
}

/// A statement of each form cut off at every byte, and with a byte of every sort there.
#[test]
fn every_beginning() {
    let statements =
        ["INPUT ( a ) ", "OUTPUT(abcdefghijklmnop)#", " y = NAND ( a , b )", "x=NOT(a)", "BUFF\t=\tBUFF(OUTPUT)", "z=XNOR(a,b)\n"];
    let cut = statements.iter().flat_map(|statement| (0..=statement.len()).map(|len| &statement.as_bytes()[..len]));
    let sorts: [&[u8]; 10] = [b"", b"(", b")", b",", b"=", b"#", b"\n", b"Q", b" Q", b"\x80"];
    let random = &mut Random::new(8);
    let some = |cut: &[u8]| [sorts[0], random.pick(&sorts), random.pick(&sorts)].map(|sort| [cut, sort].concat());
    check_all("beginnings", cut.flat_map(some).collect());
}

/// What is said of a text, after its place.
fn words(directory: &Directory, bytes: &[u8]) -> String {
    let output = Command::new(COMMAND).arg("bench").arg(directory.write("text.bench", bytes)).output().expect("it starts");
    text(&output.stderr).trim_end().split_once("): ").expect("a place").1.to_string()
}

/// A third source is where `narrow` helps, in each kind that has two, and nowhere else.
#[test]
fn wide_gates() {
    let directory = Directory::new("wide");
    let words = |statement: &str| words(&directory, format!("INPUT(a)\nOUTPUT(a)\n{statement}").as_bytes());
    for kind in ["AND", "NAND", "OR", "NOR", "XOR", "XNOR"] {
        let says = format!("after the second of the two sources of `{kind}` there must be `)`, and here is `,`");
        assert_eq!(words(&format!("y={kind}(a,a ,a)")), format!("{says}; `ullimaqsu narrow` rewrites gates of three and more sources"));
        assert_eq!(words(&format!("y={kind}(a,a=")), says.replace("`,`", "`=`"));
    }
    for other in ["y=NOT(a,a)", "y=BUFF(a,a,a)", "INPUT(a,a,a)", "y=and(a,a,a)", "y=AND(a,,a)", "y=AND(a,a),"] {
        assert!(!words(other).contains("narrow"), "{other}");
    }
}

/// There is no name for a selector, and whoever writes one is told so; a line may have its word for a name.
#[test]
fn selectors() {
    let directory = Directory::new("selectors");
    let text = |statement: &str| format!("INPUT(a)\nOUTPUT(a)\n{statement}").into_bytes();
    let says = "after `=` there must be BUFF, NOT, AND, NAND, OR, NOR, XOR or XNOR, in capitals, and here is";
    let selectors = ["y=SELECTOR(a,a,a)", "y = selector", "y=SEL(a,a,a)", "y=sel ", "y=\tMUX(a,a,a)", "y=Mux#"];
    for (statement, letter) in selectors.into_iter().zip("SsSsMM".chars()) {
        assert_eq!(words(&directory, &text(statement)), format!("{says} `{letter}`; {NO_SELECTOR}"));
    }
    for other in ["y=SELECT(a,a,a)", "y=SE(a,a,a)", "y=MUX2(a,a,a)", "y=_MUX(a)", "y=NMUX(a)", "MUX(a)"] {
        assert!(!words(&directory, &text(other)).contains("selector"), "{other}");
    }
    let texts = ["SELECTOR=NOT(a)", "SEL=NOT(a)", "MUX=SELECTOR(a)", "a1=SELECTOR", "a1=SEL", "a1=OR(MUX,a)", "a1=ORMUX(a)"].map(text);
    assert_eq!(check_all("selectors", texts.to_vec()), [0, 14, 15]);
}

/// A loop of eight gates is shown whole, and of a longer one the beginning and the end.
#[test]
fn loops() {
    let directory = Directory::new("loops");
    let ring = |len: usize| (0..len).map(|k| format!("g{k}=NOT(g{})\n", (k + 1) % len)).collect::<String>();
    let words = |len: usize| words(&directory, format!("y=NOT(g0)\n{}OUTPUT(y)", ring(len)).as_bytes());
    let before = "gate 0, `y`, can't be placed: it needs `g0` (line 2), which depends on itself: `g0` reads ";
    assert_eq!(words(1), format!("{before}`g0`"));
    let six = "`g1`, which reads `g2`, which reads `g3`, which reads `g4`, which reads `g5`, which reads `g6`";
    assert_eq!(words(8), format!("{before}{six}, which reads `g7`, which reads `g0`"));
    assert_eq!(words(9), format!("{before}{six}, and so on, 9 gates in all, of which the last reads `g0`"));
}

/// A text that ends early at the last byte that it may have does not go on.
#[test]
fn the_last_byte() {
    let directory = Directory::new("last");
    let full = [&b"#".repeat(texts::MOST - 8), &b"\nINPUT(a"[..]].concat();
    assert_eq!(words(&directory, &full), "after the name in `INPUT` there must be `)`, and here the text ends");
    assert_eq!(words(&directory, &[&full[..], b")"].concat()), "a text has at most 32,768 bytes, and this one goes on");
}

#[test]
fn sizes() {
    let random = &mut Random::new(6);
    let chains = [texts::chain(2048, true), texts::chain(2049, false)];
    let full = texts::largest(random, 2048, 64);
    let sizes =
        [full[..full.len() - 1].to_vec(), [&full[..], b"#"].concat(), texts::largest(random, 2048, 65), texts::ring(random, 400), full];
    let near = drawn(7, 20, texts::near_the_end);
    let others = [vec![], b"#".repeat(100_000)];
    assert_eq!(check_all("sizes", chains.into_iter().chain(sizes).chain(near).chain(others).collect()), [0, 1, 4, 14, 16]);
}

#[test]
fn examples() {
    let files = fs::read_dir(root().join("examples/bench")).expect("examples").map(|entry| entry.expect("an entry").path());
    let texts: Vec<_> =
        files.filter(|path| path.extension().is_some_and(|end| end == "bench")).map(|path| fs::read(path).expect("a text")).collect();
    assert_eq!(texts.len(), 6);
    assert_eq!(check_all("examples", texts), [0]);
}

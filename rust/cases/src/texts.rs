//! Texts in the bench notation, right and wrong, as bytes.
use crate::circuits::{source, sources, INPUT, NOT};
use crate::{damage, Random};

/// The most bytes that a text may have.
pub const MOST: usize = 32_768;

/// A byte of each sort that the notation knows, and some that it does not.
pub const BYTES: &[u8] = b"AINOUTXabz059_ \t\r\n#(),=.-$\0\x0b\x7f\x80\xff";

/// The kinds' names, in the order of their numbers from 1.
const KINDS: [&str; 8] = ["BUFF", "NOT", "AND", "NAND", "OR", "NOR", "XOR", "XNOR"];

/// What a name may have.
const LETTERS: &[u8; 63] = b"abcdefghijklmnopqrstuvwxyzABCDEFGHIJKLMNOPQRSTUVWXYZ0123456789_";

/// A statement as its words and signs.
pub type Statement = Vec<String>;

fn statement(tokens: &[&str]) -> Statement {
    tokens.iter().map(|token| token.to_string()).collect()
}

pub fn input(name: &str) -> Statement {
    statement(&["INPUT", "(", name, ")"])
}

pub fn output(name: &str) -> Statement {
    statement(&["OUTPUT", "(", name, ")"])
}

/// A gate of a kind, which takes as many of the sources as it has.
pub fn gate(name: &str, kind: u8, [first, second]: [&str; 2]) -> Statement {
    let word = KINDS[usize::from(kind) - 1];
    match sources(kind) {
        1 => statement(&[name, "=", word, "(", first, ")"]),
        _ => statement(&[name, "=", word, "(", first, ",", second, ")"]),
    }
}

/// The statements of records without selectors, in their order, an output's behind its line, which is called by this letter and its number.
pub fn of_records(records: &[u8], letter: char) -> Vec<Statement> {
    let name = |line: usize| format!("{letter}{line}");
    let mut all = vec![];
    for (line, record) in records.chunks_exact(8).enumerate() {
        all.push(match record[0] {
            INPUT => input(&name(line)),
            kind => gate(&name(line), kind, [1, 2].map(|pin| name(source(record, pin))).each_ref().map(String::as_str)),
        });
        if record[1] == 1 {
            all.push(output(&name(line)));
        }
    }
    all
}

/// The statements a line each, with nothing that could be left out.
pub fn dense(statements: &[Statement]) -> Vec<u8> {
    statements.iter().map(|statement| statement.concat() + "\n").collect::<String>().into_bytes()
}

/// The k-th of the shortest names: one letter, then two.
pub fn short(k: usize) -> String {
    let letter = |k: usize| char::from(LETTERS[k % 63]);
    match k.checked_sub(63) {
        None => letter(k).to_string(),
        Some(k) => [letter(k / 63), letter(k)].iter().collect(),
    }
}

/// A name: of few letters or many, a keyword, or one that differs from others in its last letters alone.
fn name(random: &mut Random) -> String {
    let mut letters = |most: usize| -> String {
        let len = 1 + random.below(most);
        (0..len).map(|_| char::from(random.pick(LETTERS))).collect()
    };
    let (few, many, last) = (letters(3), letters(16), letters(2));
    match random.below(8) {
        0 => random.pick(&["INPUT", "OUTPUT", "NAND", "BUFF", "NOT", "XNOR", "input", "IN", "OUTPUTS", "_", "0"]).to_string(),
        1 => format!("line_of_a_gate{last}"),
        2..=4 => few,
        _ => many,
    }
}

/// So many names, each another.
fn names(random: &mut Random, count: usize) -> Vec<String> {
    let mut names: Vec<String> = vec![];
    while names.len() < count {
        let name = name(random);
        if !names.contains(&name) {
            names.push(name);
        }
    }
    names
}

fn shuffle<T>(random: &mut Random, list: &mut [T]) {
    (1..list.len()).for_each(|k| list.swap(k, random.below(k + 1)));
}

/// The statements of a circuit of so many lines with so many inputs, in any order: as they stand, backwards, or mixed. Sources are near or
/// far, now and then twice the same; outputs are few or many, on inputs too, and some are written twice.
pub fn statements(random: &mut Random, lines: usize, inputs: usize) -> Vec<Statement> {
    let names = names(random, lines);
    let reach = random.pick(&[1, 2, 5, lines]);
    let sparse = random.pick(&[1, 2, 5, lines]);
    let mut all: Vec<Statement> = names[..inputs].iter().map(|name| input(name)).collect();
    for line in inputs..lines {
        let mut source = || names[line - 1 - random.below(reach.min(line))].as_str();
        let both = [source(), source()];
        all.push(gate(&names[line], 1 + random.below(8) as u8, both));
    }
    let mut outputs: Vec<&String> = names.iter().filter(|_| random.once_in(sparse)).collect();
    if outputs.is_empty() {
        outputs.push(&names[random.below(lines)]);
    }
    all.extend(outputs.iter().map(|name| output(name)));
    all.extend(outputs.iter().filter(|_| random.once_in(4)).map(|name| output(name)));
    match random.below(4) {
        0 => (),
        1 => all.reverse(),
        _ => shuffle(random, &mut all),
    }
    all
}

/// What follows `#`: any bytes but a line feed, or what would be a statement.
fn comment(random: &mut Random) -> Vec<u8> {
    if random.once_in(2) {
        return b"# INPUT(a) # y = NOT(a".to_vec();
    }
    let len = random.below(12);
    let bytes = (0..len).map(|_| random.byte()).map(|byte| if byte == b'\n' { b'#' } else { byte });
    [b'#'].into_iter().chain(bytes).collect()
}

/// Writes statements with blanks, comments, empty lines and line ends of one sort or mixed; the last line is ended or not.
pub fn written(random: &mut Random, statements: &[Statement]) -> Vec<u8> {
    let (blank, remark, windows) = (random.pick(&[1, 2, 4, 1000]), random.pick(&[2, 5, 1000]), random.below(3));
    let mut text = vec![];
    let blanks = |random: &mut Random, text: &mut Vec<u8>| {
        while random.once_in(1 + blank) && random.once_in(2) {
            text.push(random.pick(b"  \t\r"));
        }
    };
    for (number, statement) in statements.iter().enumerate() {
        loop {
            let empty = random.once_in(remark);
            for token in statement.iter().filter(|_| !empty) {
                blanks(random, &mut text);
                text.extend(token.bytes());
            }
            blanks(random, &mut text);
            if random.once_in(remark) {
                text.extend(comment(random));
            }
            if number + 1 == statements.len() && !empty && random.once_in(2) {
                return text;
            }
            text.extend(if windows == 0 || windows == 1 && random.once_in(2) { &b"\r\n"[..] } else { b"\n" });
            if !empty {
                break;
            }
        }
    }
    text
}

/// The statements of a few lines, now and then of one.
fn few(random: &mut Random) -> Vec<Statement> {
    let most = random.pick(&[2, 4, 8, 16, 40]);
    let lines = 1 + random.below(most);
    let inputs = 1 + random.below(lines.min(64));
    statements(random, lines, inputs)
}

/// A right text of a few lines.
pub fn small(random: &mut Random) -> Vec<u8> {
    let statements = few(random);
    written(random, &statements)
}

/// Where the names stand that a statement defines, and that it uses.
fn defined(statement: &Statement) -> &'static [usize] {
    match (statement[0].as_str(), statement[1].as_str()) {
        (_, "=") => &[0],
        ("INPUT", _) => &[2],
        _ => &[],
    }
}

fn used(statement: &Statement) -> &'static [usize] {
    match (statement[0].as_str(), statement.len()) {
        (_, 8) => &[4, 6],
        (_, 6) => &[4],
        ("OUTPUT", _) => &[2],
        _ => &[],
    }
}

/// Puts another name at a name's place, most often one that is defined at one's that is used.
fn rename(random: &mut Random, statements: &mut [Statement]) {
    let places = |of: fn(&Statement) -> &'static [usize]| -> Vec<(usize, usize)> {
        statements.iter().enumerate().flat_map(|(number, statement)| of(statement).iter().map(move |&token| (number, token))).collect()
    };
    let (defined, used) = (places(defined), places(used));
    if defined.is_empty() || used.is_empty() {
        return;
    }
    let from = if random.once_in(6) { &defined } else { &used };
    let (number, token) = random.pick(from);
    let (other, other_token) = random.pick(&defined);
    let old = statements[number][token].clone();
    statements[number][token] = match random.below(24) {
        0 => name(random),
        1 => old[..old.len() - 1].to_string() + "_",
        2 if old.len() < 16 => old + "a",
        _ => statements[other][other_token].clone(),
    };
}

/// A text that is right in syntax, but for its names: some are undefined, or defined twice, or there are cycles, or no outputs.
pub fn misnamed(random: &mut Random) -> Vec<u8> {
    let mut statements = few(random);
    let mut times = 0;
    while !statements.is_empty() && (times == 0 || random.once_in(3)) {
        times += 1;
        let at = random.below(statements.len());
        match random.below(16) {
            0 => drop(statements.remove(at)),
            1 => statements.push(statements[at].clone()),
            2 => statements.retain(|statement| statement[0] != "OUTPUT"),
            _ => rename(random, &mut statements),
        }
    }
    written(random, &statements)
}

/// A right text of a few lines, to which one damage was done or several.
pub fn damaged(random: &mut Random) -> Vec<u8> {
    let mut text = small(random);
    damage::several(random, &mut text, damage::text);
    text
}

/// A text with a cycle of one gate, of a few or of many.
pub fn cyclic(random: &mut Random) -> Vec<u8> {
    let most = random.pick(&[1, 2, 3, 9, 100]);
    let len = 1 + random.below(most);
    ring(random, len)
}

/// So many gates in a ring, some before it and some behind it, in any order.
pub fn ring(random: &mut Random, len: usize) -> Vec<u8> {
    let names = names(random, len + 9);
    let (ring, others) = names.split_at(len);
    let mut source = |from: &[String]| from[random.below(from.len())].clone();
    let mut all = vec![input(&others[0]), output(&others[8])];
    for k in 0..len {
        let other = source(others);
        all.push(gate(&ring[k], if k % 2 == 0 { NOT } else { NOT + 1 }, [&ring[(k + 1) % len], &other]));
    }
    for k in 1..9 {
        let (lower, any) = (source(&others[..k]), source(&names));
        all.push(gate(&others[k], NOT + 2, [&lower, if k < 4 { &lower } else { &any }]));
    }
    shuffle(random, &mut all);
    written(random, &all)
}

/// A chain of so many lines, each gate reading the one before it; as it stands or backwards, which is the worst order.
pub fn chain(lines: usize, backwards: bool) -> Vec<u8> {
    let gates = (1..lines).map(|line| gate(&short(line), NOT, [&short(line - 1), ""]));
    let mut all: Vec<Statement> = [input(&short(0))].into_iter().chain(gates).collect();
    if backwards {
        all.reverse();
    }
    all.push(output(&short(lines - 1)));
    dense(&all)
}

/// So many pairs of gates, one in the first half of the text and its source in the second: whoever goes through the text for the earliest gate
/// that is ready crosses half of it for each.
pub fn crossed(pairs: usize) -> Vec<u8> {
    let first = (1..=pairs).map(|k| gate(&short(k), NOT, [&short(pairs + k), ""]));
    let second = (1..=pairs).map(|k| gate(&short(pairs + k), NOT, [&short(0), ""]));
    dense(&first.chain(second).chain([input(&short(0)), output(&short(pairs))]).collect::<Vec<_>>())
}

/// A text of so many lines and inputs with short names, whose outputs, many of them repeated, and a last comment fill it to the last byte
/// that a text may have. 2,048 lines fit, and some more.
pub fn largest(random: &mut Random, lines: usize, inputs: usize) -> Vec<u8> {
    let mut all: Vec<Statement> = (0..inputs).map(|line| input(&short(line))).collect();
    for line in inputs..lines {
        let (first, second) = (short(random.below(line.min(63))), short(random.below(line.min(63))));
        let kind = if random.once_in(4) { 1 + random.below(8) as u8 } else { NOT };
        all.push(gate(&short(line), kind, [&first, &second]));
    }
    shuffle(random, &mut all);
    let mut text = dense(&all);
    while text.len() + 12 <= MOST {
        text.extend(dense(&[output(&short(random.below(lines)))]));
    }
    text.resize(MOST, b'#');
    text
}

/// A small text with so much before it or behind it that it ends near the most bytes that a text may have.
pub fn near_the_end(random: &mut Random) -> Vec<u8> {
    let small = small(random);
    let len = MOST - 3 + random.below(7);
    let (filler, around) = (random.pick(b" \n#\t"), random.below(2));
    let filled = vec![filler; len.saturating_sub(small.len() + 1)];
    if around == 0 {
        [&small[..], b"\n", &filled].concat()
    } else {
        [&filled[..], b"\n", &small].concat()
    }
}

/// Bytes or words in no order.
pub fn soup(random: &mut Random) -> Vec<u8> {
    const WORDS: [&str; 16] =
        ["INPUT", "OUTPUT", "(", ")", ",", "=", "\n", "#", " ", "\r\n", "a", "b1", "AND", "NOT", "INPUT(a)\n", "y=OR(a,a"];
    let len = random.below(24);
    if random.once_in(2) {
        return (0..len).map(|_| random.pick(BYTES)).collect();
    }
    (0..len).flat_map(|_| random.pick(&WORDS).bytes()).collect()
}

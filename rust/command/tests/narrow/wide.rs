//! Texts with gates of one source to twenty.
use cases::texts::{input, output, Statement};
use cases::Random;

/// The kinds that have two sources and more.
pub const MANY: [&str; 6] = ["AND", "NAND", "OR", "NOR", "XOR", "XNOR"];

/// The most sources that are drawn for a gate.
const MOST: usize = 20;

/// Names among which those that are made must find their way: some are as long as may be, some are what would be made for others.
fn name(random: &mut Random) -> String {
    let number = random.below(40);
    match random.below(6) {
        0 => format!("y_{number}"),
        1 => format!("abcdefghijklmn{number:02}"),
        2 => format!("abcdefghijklm_{:02}", random.below(12)),
        3 => format!("abcdefghijklmn_{}", random.below(10)),
        4 => random.pick(&["y", "y_", "_", "INPUT", "AND", "nand", "buf", "BUF", "input", "y__1", "y_1_1"]).to_string(),
        _ => format!("n{number}"),
    }
}

fn gate(name: &str, kind: &str, sources: &[String]) -> Statement {
    let separated = sources.iter().flat_map(|source| [",".to_string(), source.clone()]).skip(1);
    [name, "=", kind, "("].map(str::to_string).into_iter().chain(separated).chain([")".to_string()]).collect()
}

/// The statements of a circuit of some inputs and gates with names of one sort, in any order: gates of these kinds with at most so many sources,
/// of which one is wide, and BUFF and NOT.
pub fn statements(random: &mut Random, name: fn(&mut Random) -> String, kinds: &[&'static str], most: usize) -> Vec<Statement> {
    let (inputs, gates) = (1 + random.below(8), 1 + random.below(12));
    let mut names: Vec<String> = vec![];
    while names.len() < inputs + gates {
        let name = name(random);
        if !names.contains(&name) {
            names.push(name);
        }
    }
    let mut all: Vec<Statement> = names[..inputs].iter().map(|name| input(name)).collect();
    for line in inputs..names.len() {
        let wide = 3 + random.below(most - 2);
        let count = if line == inputs { wide } else { random.pick(&[1, 2, 3, wide]) };
        let kind = random.pick(if count == 1 { &["BUFF", "NOT"] } else { kinds });
        let sources: Vec<String> = (0..count).map(|_| names[random.below(line)].clone()).collect();
        all.push(gate(&names[line], kind, &sources));
    }
    let last = names.len() - 1;
    all.extend(names.iter().enumerate().filter(|(line, _)| *line == last || random.once_in(4)).map(|(_, name)| output(name)));
    (1..all.len()).for_each(|k| all.swap(k, random.below(k + 1)));
    all
}

/// The same with plain names.
pub fn plain(random: &mut Random, kinds: &[&'static str], most: usize) -> Vec<Statement> {
    statements(random, |random| format!("n{}", random.below(99)), kinds, most)
}

/// Puts some keywords in small letters, and BUF for BUFF.
fn small_letters(random: &mut Random, statements: &mut [Statement]) {
    for statement in statements {
        let keyword = if statement[1] == "=" { 2 } else { 0 };
        if random.once_in(2) {
            statement[keyword] = statement[keyword].replace("BUFF", random.pick(&["BUFF", "BUF"])).to_lowercase();
        }
    }
}

/// A text with blanks, comments, and line ends of both sorts.
pub fn text(random: &mut Random) -> Vec<u8> {
    let mut statements = statements(random, name, &MANY, MOST);
    if random.once_in(4) {
        small_letters(random, &mut statements);
    }
    cases::texts::written(random, &statements)
}

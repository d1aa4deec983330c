//! What is asked of a narrow text, beside the text that it was made of.
use crate::equations::{words, Equations, Lanes};
use cases::Random;
use std::collections::HashSet;

/// Lines with their ends.
fn lines(text: &[u8]) -> Vec<&[u8]> {
    text.split_inclusive(|&byte| byte == b'\n').collect()
}

/// How a line ends, if it does.
fn end(line: &[u8]) -> Option<&'static [u8]> {
    [&b"\r\n"[..], b"\n"].into_iter().find(|end| line.ends_with(end))
}

fn ensure(holds: bool, says: &str) -> Result<(), String> {
    holds.then_some(()).ok_or_else(|| says.to_string())
}

/// The narrow text says the same, in the same lines but for wide gates.
pub fn held(wide: &[u8], narrow: &[u8], random: &mut Random) -> Result<(), String> {
    names(wide, narrow)?;
    same_lines(wide, narrow)?;
    same_values(wide, narrow, random)
}

/// No gate has more than two sources. Names have 16 letters at most, and each is defined once.
fn names(wide: &[u8], narrow: &[u8]) -> Result<(), String> {
    let (before, after) = (Equations::read(wide), Equations::read(narrow));
    ensure(after.gates.iter().all(|gate| gate.sources.len() <= 2), "a gate is wide")?;
    ensure((&before.inputs, &before.outputs) == (&after.inputs, &after.outputs), "inputs or outputs are others")?;
    let mut defined = HashSet::new();
    let all = after.inputs.iter().chain(after.gates.iter().map(|gate| &gate.name));
    all.into_iter().try_for_each(|name| {
        ensure(name.len() <= 16, "a name is too long")?;
        ensure(defined.insert(name), "a name is defined twice")
    })
}

/// Every line stands there, with keywords put right. Before the line of a gate of n sources are n - 2 new ones, which end as it does, and in it
/// nothing but the sources is new.
fn same_lines(wide: &[u8], narrow: &[u8]) -> Result<(), String> {
    let first = end(lines(wide)[0]).unwrap_or(b"\n");
    let mut after = lines(narrow).into_iter();
    for line in lines(wide) {
        let made = words(line).len().saturating_sub(4);
        for _ in 0..made {
            let new =
                after.next().and_then(|new| new.strip_suffix(end(line).unwrap_or(first))).ok_or("a line is missing, or ends otherwise")?;
            ensure(words(new).len() == 4 && new.ends_with(b")"), "a line is no gate of two sources")?;
        }
        let (was, is) = (spelled(line), after.next().ok_or("a line is missing")?.to_vec());
        let same = if made == 0 { was == is } else { without_sources(&was) == without_sources(&is) };
        ensure(same, "a line is another")?;
    }
    ensure(after.next().is_none(), "there are more lines")
}

/// A line with the keyword as the library has it.
fn spelled(line: &[u8]) -> Vec<u8> {
    let words = words(line);
    let keyword = match words.len() {
        0 => return line.to_vec(),
        2 => 0,
        _ => 1,
    };
    // keywords stand behind the gate's name and its sign, or first
    let from = if keyword == 0 { 0 } else { line.iter().position(|&byte| byte == b'=').expect("a gate") };
    let at = from + line[from..].windows(words[keyword].len()).position(|some| some == words[keyword].as_bytes()).expect("it is there");
    let right = words[keyword].to_uppercase();
    let right = if right == "BUF" { "BUFF".to_string() } else { right };
    [&line[..at], right.as_bytes(), &line[at + words[keyword].len()..]].concat()
}

/// What stands before the first source of a gate and behind its last.
fn without_sources(line: &[u8]) -> (Vec<u8>, Vec<u8>) {
    let open = line.iter().position(|&byte| byte == b'(').expect("a gate");
    let close = line.iter().position(|&byte| byte == b')').expect("a gate");
    let blanks = |bytes: &mut dyn Iterator<Item = &u8>| bytes.take_while(|byte| b" \t\r".contains(byte)).count();
    let before = open + 1 + blanks(&mut line[open + 1..].iter());
    let behind = close - blanks(&mut line[..close].iter().rev());
    (line[..before].to_vec(), line[behind..].to_vec())
}

/// Every name of the wide text has the same value, under all vectors of up to six inputs and under patterns with X's.
fn same_values(wide: &[u8], narrow: &[u8], random: &mut Random) -> Result<(), String> {
    let (before, after) = (Equations::read(wide), Equations::read(narrow));
    const ALL: [u64; 6] = [
        0xaaaa_aaaa_aaaa_aaaa,
        0xcccc_cccc_cccc_cccc,
        0xf0f0_f0f0_f0f0_f0f0,
        0xff00_ff00_ff00_ff00,
        0xffff_0000_ffff_0000,
        0xffff_ffff_0000_0000,
    ];
    for round in 0..4 {
        let lanes = |k: usize| -> Lanes {
            let (ones, known) =
                (ALL.get(k).copied().unwrap_or_else(|| random.word()), if round == 0 { u64::MAX } else { random.word() | random.word() });
            (ones & known, !ones & known)
        };
        let inputs: Vec<Lanes> = (0..before.inputs.len()).map(lanes).collect();
        let (right, found) = (before.values(&inputs), after.values(&inputs));
        for (name, value) in right {
            ensure(found.get(name) == Some(&value), &format!("{name} has another value"))?;
        }
    }
    Ok(())
}

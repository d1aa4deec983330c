//! The bench reader, and the names of its lines: words are cut in one pass, a table of hashes finds the names, and gates are placed by a
//! cursor that goes back to the first reader of the gate it placed.
mod syntax;

use super::check::check;
use super::report;

/// The most words, lines and statements of a text, and one more.
const WORDS: usize = 16_385;
const LINES: usize = 32_769;
const STATEMENTS: usize = 8_193;
const HEADS: usize = 8_192;

/// Why a text is refused: the number, and the place.
type Refused = (u32, usize);

/// Names by their first bytes, of which the first `len` count.
struct List {
    at: [u16; STATEMENTS],
    len: usize,
}

impl List {
    fn new() -> List {
        List { at: [0; STATEMENTS], len: 0 }
    }

    fn push(&mut self, item: u16) {
        self.at[self.len] = item;
        self.len += 1;
    }

    fn items(&self) -> &[u16] {
        &self.at[..self.len]
    }
}

fn is_word(byte: u8) -> bool {
    byte.is_ascii_alphanumeric() || byte == b'_'
}

fn word_at(text: &[u8], at: u16) -> &[u8] {
    let rest = &text[at as usize..];
    let len = rest.iter().position(|&byte| !is_word(byte)).unwrap_or(rest.len());
    &rest[..len]
}

/// Where each word begins, and how many words stand before each line's end. How many lines there are.
fn cut(text: &[u8], words: &mut [u16; WORDS], ends: &mut [u16; LINES]) -> usize {
    let (mut inside, mut comment) = (false, false);
    let (mut word, mut line) = (0, 0);
    for (place, &byte) in text.iter().enumerate() {
        if byte == b'\n' {
            ends[line] = word as u16;
            line += 1;
            (inside, comment) = (false, false);
        } else if !comment {
            comment = byte == b'#';
            let was_inside = inside;
            inside = is_word(byte);
            if inside && !was_inside {
                words[word] = place as u16;
                word += 1;
            }
        }
    }
    ends[line] = word as u16;
    line + 1
}

fn kind_of(word: &[u8]) -> u8 {
    match word {
        b"BUFF" => 1,
        b"NOT" => 2,
        b"AND" => 3,
        b"NAND" => 4,
        b"OR" => 5,
        b"NOR" => 6,
        b"XOR" => 7,
        _ => 8,
    }
}

/// What the lines say. Gates are numbered from 0, then the inputs.
struct Statements {
    defined: List,
    gates: [bool; STATEMENTS],
    outputs: List,
    firsts: List,
    seconds: List,
    kinds: [u8; STATEMENTS],
}

impl Statements {
    fn read(text: &[u8], words: &[u16], ends: &[u16]) -> Statements {
        let mut all = Statements {
            defined: List::new(),
            gates: [false; STATEMENTS],
            outputs: List::new(),
            firsts: List::new(),
            seconds: List::new(),
            kinds: [0; STATEMENTS],
        };
        let mut start = 0;
        for &end in ends {
            match words[start..end as usize] {
                [word, name] if word_at(text, word) == b"INPUT" => all.defined.push(name),
                [_, name] => all.outputs.push(name),
                [name, kind, first] => all.gate(text, name, kind, first, first),
                [name, kind, first, second] => all.gate(text, name, kind, first, second),
                _ => (),
            }
            start = end as usize;
        }
        all
    }

    fn gate(&mut self, text: &[u8], name: u16, kind: u16, first: u16, second: u16) {
        self.kinds[self.firsts.len] = kind_of(word_at(text, kind));
        self.gates[self.defined.len] = true;
        self.defined.push(name);
        self.firsts.push(first);
        self.seconds.push(second);
    }
}

/// The names that are defined, in lists by their hash.
struct Names<'a> {
    text: &'a [u8],
    defined: &'a [u16],
    head: [u16; HEADS],
    next: [u16; STATEMENTS],
}

impl Names<'_> {
    fn hash(name: &[u8]) -> usize {
        name.iter().fold(0, |hash, &byte| (hash * 131 + byte as usize) % HEADS)
    }

    fn find(&self, hash: usize, name: &[u8]) -> Option<usize> {
        let mut entry = self.head[hash];
        while entry > 0 {
            let number = entry as usize - 1;
            if word_at(self.text, self.defined[number]) == name {
                return Some(number);
            }
            entry = self.next[number];
        }
        None
    }

    /// All definitions join. The lowest byte of a second one.
    fn enter(&mut self) -> Option<u16> {
        let mut second = None;
        for (number, &at) in self.defined.iter().enumerate() {
            let name = word_at(self.text, at);
            let hash = Self::hash(name);
            if self.find(hash, name).is_some() {
                second = second.or(Some(at));
            }
            self.next[number] = self.head[hash];
            self.head[hash] = number as u16 + 1;
        }
        second
    }

    /// Puts numbers for names. The lowest byte of a name that is defined nowhere.
    fn resolve(&self, numbers: &[u16], names: &mut List) -> Option<u16> {
        let mut unknown = None;
        for item in &mut names.at[..names.len] {
            let name = word_at(self.text, *item);
            match self.find(Self::hash(name), name) {
                Some(number) => *item = numbers[number],
                None => unknown = unknown.or(Some(*item)),
            }
        }
        unknown
    }
}

/// The gates in their order, or the first that can't be placed.
fn place(firsts: &[u16], seconds: &[u16], order: &mut [u16]) -> Result<(), Refused> {
    let gates = firsts.len();
    let (mut reader, mut placed) = ([u16::MAX; STATEMENTS], [false; STATEMENTS]);
    for gate in (0..gates).rev() {
        for source in [firsts[gate] as usize, seconds[gate] as usize] {
            if source < gates {
                reader[source] = gate as u16;
            }
        }
    }
    placed[gates..].fill(true);
    let (mut count, mut gate) = (0, 0);
    while gate < gates {
        if !placed[gate] && placed[firsts[gate] as usize] && placed[seconds[gate] as usize] {
            placed[gate] = true;
            order[count] = gate as u16;
            count += 1;
            gate = (gate + 1).min(reader[gate] as usize);
        } else {
            gate += 1;
        }
    }
    match placed[..gates].iter().position(|&placed| !placed) {
        Some(left) => Err((16, left)),
        None => Ok(()),
    }
}

fn records(inputs: usize, all: &Statements, order: &[u16], records: &mut [u8]) {
    let gates = order.len();
    let mut line_of = [0; STATEMENTS];
    order.iter().enumerate().for_each(|(k, &gate)| line_of[gate as usize] = (inputs + k) as u16);
    (0..inputs).for_each(|input| line_of[gates + input] = input as u16);
    for (record, &gate) in records[8 * inputs..].chunks_exact_mut(8).zip(order) {
        let gate = gate as usize;
        let kind = all.kinds[gate];
        record[0] = kind;
        record[2..4].copy_from_slice(&line_of[all.firsts.at[gate] as usize].to_le_bytes());
        if kind > 2 {
            record[4..6].copy_from_slice(&line_of[all.seconds.at[gate] as usize].to_le_bytes());
        }
    }
    for &output in all.outputs.items() {
        records[8 * line_of[output as usize] as usize + 1] = 1;
    }
}

/// The first byte of each line's name where it is defined: the inputs as they stand, the gates in their order.
fn names(all: &Statements, order: &[u16], places: &mut [u32]) {
    let (inputs, gates) = places.split_at_mut(all.defined.len - order.len());
    let mut defined = [0; STATEMENTS];
    let (mut gate, mut input) = (0, 0);
    for (&at, &is_gate) in all.defined.items().iter().zip(&all.gates) {
        if is_gate {
            defined[gate] = at;
            gate += 1;
        } else {
            inputs[input] = at.into();
            input += 1;
        }
    }
    gates.iter_mut().zip(order).for_each(|(place, &gate)| *place = defined[gate as usize].into());
}

/// Reads a text, and hands on its statements, the order of its gates and its records. The number of records.
fn read(text: &[u8], then: impl FnOnce(&Statements, &[u16], &[u8]) -> Result<(), Refused>) -> Result<usize, Refused> {
    syntax::check(text)?;
    let (mut words, mut ends) = ([0; WORDS], [0; LINES]);
    let lines = cut(text, &mut words, &mut ends);
    let mut all = Statements::read(text, &words, &ends[..lines]);

    let gates = all.firsts.len;
    let mut numbers = [0; STATEMENTS];
    let (mut gate, mut input) = (0, gates as u16);
    for (number, &is_gate) in numbers.iter_mut().zip(&all.gates[..all.defined.len]) {
        let next = if is_gate { &mut gate } else { &mut input };
        *number = *next;
        *next += 1;
    }
    let mut names = Names { text, defined: all.defined.items(), head: [0; HEADS], next: [0; STATEMENTS] };
    let wrong = [
        names.enter(),
        names.resolve(&numbers, &mut all.outputs),
        names.resolve(&numbers, &mut all.firsts),
        names.resolve(&numbers, &mut all.seconds),
    ];
    if let Some(&lowest) = wrong.iter().flatten().min() {
        return Err((15, lowest as usize));
    }

    let mut order = [0; STATEMENTS];
    place(all.firsts.items(), all.seconds.items(), &mut order)?;
    let n = all.defined.len;
    if n > 2048 {
        return Err((1, 0));
    }
    let mut made = [0; 16_384];
    let made = &mut made[..8 * n];
    records(n - gates, &all, &order[..gates], made);
    check(made)?;
    then(&all, &order[..gates], made)?;
    Ok(n)
}

fn answered(read: Result<usize, Refused>, answer: &mut [u8; 32]) -> u32 {
    match read {
        Ok(records) => report(0, [records as u64, 0, 0], answer),
        Err((number, place)) => report(number, [place as u64, 0, 0], answer),
    }
}

pub fn enter(text: &[u8], circuit: &mut [u8], answer: &mut [u8; 32]) -> u32 {
    let read = read(text, |_, _, records| {
        if circuit.len() != 16_384 {
            return Err((10, 0));
        }
        circuit[..records.len()].copy_from_slice(records);
        Ok(())
    });
    answered(read, answer)
}

pub fn enter_names(text: &[u8], places: &mut [u32], answer: &mut [u8; 32]) -> u32 {
    let read = read(text, |all, order, _| {
        if places.len() != 2_048 {
            return Err((10, 0));
        }
        names(all, order, places);
        Ok(())
    });
    answered(read, answer)
}

#[cfg(test)]
mod tests {
    use super::*;
    use cases::{drawn, texts, Random};
    use second::entries::{self, Seen};

    /// What the reader answers and leaves in a buffer of this size.
    fn seen(text: &[u8], room: usize) -> Seen {
        let (mut circuit, mut answer) = (vec![7; room], [7; 32]);
        let returned = enter(text, &mut circuit, &mut answer);
        Seen { returned, answer: answer.to_vec(), lent: vec![circuit.into()] }
    }

    /// The same of the names, with so many places.
    fn seen_names(text: &[u8], room: usize) -> Seen {
        let (mut places, mut answer) = (vec![7; room], [7; 32]);
        let returned = enter_names(text, &mut places, &mut answer);
        Seen { returned, answer: answer.to_vec(), lent: vec![places.into()] }
    }

    /// They are the same reader and the same names as the second program's.
    #[test]
    fn answers_as_the_second_program_does() {
        let small = drawn(1, 3_000, texts::small).chain(drawn(2, 10_000, texts::damaged)).chain(drawn(3, 5_000, texts::misnamed));
        let others = drawn(4, 5_000, texts::soup).chain(drawn(5, 300, texts::cyclic)).chain(drawn(6, 100, texts::near_the_end));
        let chains = [1, 2, 2048, 2049].into_iter().flat_map(|lines| [false, true].map(|backwards| texts::chain(lines, backwards)));
        let sizes = [(2048, 64), (2048, 65), (2049, 64), (2200, 1)];
        let largest = sizes.into_iter().map(|(lines, inputs)| texts::largest(&mut Random::new(7), lines, inputs));
        for (number, text) in small.chain(others).chain(chains).chain(largest).chain([texts::crossed(1023)]).enumerate() {
            let missing = usize::from(number % 10 == 0);
            let (room, places) = (16_384 - missing, 2_048 - missing);
            assert_eq!(seen(&text, room), entries::bench(&text, &vec![7; room], &[7; 32]), "{text:?}");
            assert_eq!(seen_names(&text, places), entries::bench_names(&text, &vec![7; places], &[7; 32]), "{text:?}");
        }
    }
}

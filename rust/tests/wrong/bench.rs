//! Bench readers that are wrong in one way each.
use super::answered::{number, refuse, set_number, then};
use super::Bench;
use second::bench::{ByName, Text, Word};
use second::circuit::{Circuit, Gate, Line};
use second::entries::{self, Seen};

/// What the second program says of another text.
fn of_text(case: &Bench, text: Vec<u8>) -> Seen {
    entries::bench(&text, &case.circuit, &case.answer)
}

/// The second program with some bytes taken for others.
fn with_bytes(case: &Bench, byte: fn(u8) -> u8) -> Seen {
    of_text(case, case.text.iter().map(|&old| byte(old)).collect())
}

/// Places always the gate that is picked of those that are ready, in the text's order.
fn by(case: &Bench, pick: fn(&[usize]) -> usize) -> Seen {
    then(case, 0, |seen| {
        let text = Text::read(&case.text).expect("sound");
        let line = |name: &[u8], gate| Line { gate, output: text.outputs.iter().any(|output| output.name == name) };
        let mut lines: Vec<Line> = text.inputs.iter().map(|word| line(word.name, Gate::Input)).collect();
        let mut line_of: ByName<usize> = text.inputs.iter().enumerate().map(|(line, word)| (word.name, line)).collect();
        while line_of.len() < text.inputs.len() + text.equations.len() {
            let ready = |&gate: &usize| {
                let (word, gate) = text.equations[gate];
                !line_of.contains_key(word.name) && gate.sources().iter().all(|source| line_of.contains_key(source.name))
            };
            let ready: Vec<usize> = (0..text.equations.len()).filter(ready).collect();
            let (word, gate) = text.equations[pick(&ready)];
            lines.push(line(word.name, gate.over(|_, source| line_of[source.name])));
            line_of.insert(word.name, line_of.len());
        }
        let records = Circuit { lines }.write();
        seen.lent[0].u8()[..records.len()].copy_from_slice(&records);
    })
}

/// The records of an accepted case, each changed.
fn with_records(case: &Bench, change: impl Fn(&mut [u8])) -> Seen {
    then(case, 0, |seen| {
        let records = number(seen);
        seen.lent[0].u8().chunks_exact_mut(8).take(records).for_each(&change);
    })
}

/// How often an output is written, instead of whether.
fn counted_outputs(case: &Bench) -> Seen {
    then(case, 0, |seen| {
        let text = Text::read(&case.text).expect("sound");
        let line_of = text.place().expect("sound").line_of;
        let records = number(seen);
        let circuit = seen.lent[0].u8();
        (0..records).for_each(|line| circuit[8 * line + 1] = 0);
        let flag = |word: &Word| 8 * line_of[word.name] + 1;
        text.outputs.iter().for_each(|word| circuit[flag(word)] = circuit[flag(word)].saturating_add(1));
    })
}

type Wrong = (&'static str, fn(&Bench) -> Seen);

pub const PROGRAMS: [Wrong; 21] = [
    ("places the latest gate that is ready", |case| by(case, |ready| ready[ready.len() - 1])),
    ("places the second gate that is ready", |case| by(case, |ready| ready[1.min(ready.len() - 1)])),
    ("swaps the sources of a gate", |case| {
        with_records(case, |record| {
            if record[0] > 2 {
                record[2..6].rotate_left(2);
            }
        })
    }),
    ("writes the source of a gate that has one twice", |case| {
        with_records(case, |record| {
            if let 1 | 2 = record[0] {
                record.copy_within(2..4, 4);
            }
        })
    }),
    ("counts an output as often as it is written", counted_outputs),
    ("answers the number of bytes", |case| then(case, 0, |seen| set_number(seen, 8 * number(seen)))),
    ("clears the rest of the buffer", |case| {
        then(case, 0, |seen| {
            let records = number(seen);
            seen.lent[0].u8()[8 * records..].fill(0)
        })
    }),
    ("gives the byte behind that of a wrong name", |case| then(case, 15, |seen| set_number(seen, number(seen) + 1))),
    ("gives the beginning of a wrong name's line", |case| {
        then(case, 15, |seen| {
            let line = case.text[..number(seen)].iter().rposition(|&byte| byte == b'\n').map_or(0, |end| end + 1);
            set_number(seen, line)
        })
    }),
    ("counts inputs among the gates", |case| {
        then(case, 16, |seen| {
            let text = Text::read(&case.text).expect("right in syntax");
            let gate = text.equations[number(seen)].0.at;
            set_number(seen, number(seen) + text.inputs.iter().filter(|input| input.at < gate).count())
        })
    }),
    ("looks for cycles before it looks at names", |case| {
        then(case, 15, |seen| {
            let text = Text::read(&case.text).expect("right in syntax");
            let itself = |(word, gate): &(Word, Gate<Word>)| gate.sources().iter().any(|source| source.name == word.name);
            if let Some(gate) = text.equations.iter().position(itself) {
                refuse(seen, 16, gate)
            }
        })
    }),
    ("counts inputs before it counts lines", |case| {
        then(case, 1, |seen| {
            if Text::read(&case.text).expect("right in syntax").inputs.len() > 64 {
                refuse(seen, 4, 0)
            }
        })
    }),
    ("looks at the buffer before it looks at the circuit", |case| {
        then(case, 5, |seen| {
            if case.circuit.len() != 16_384 {
                refuse(seen, 10, 0)
            }
        })
    }),
    ("writes what fits, whatever the buffer's size", |case| {
        then(case, 10, |seen| {
            let mut full = entries::bench(&case.text, &[7; 16_384], &case.answer);
            seen.lent[0].u8().iter_mut().zip(full.lent[0].u8()).for_each(|(to, from)| *to = *from)
        })
    }),
    ("takes small letters for capitals", |case| with_bytes(case, |byte| byte.to_ascii_uppercase())),
    ("takes a vertical tab for a blank", |case| with_bytes(case, |byte| if byte == 0x0b { b' ' } else { byte })),
    ("takes no CR for a blank", |case| with_bytes(case, |byte| if byte == b'\r' { b'$' } else { byte })),
    ("ends a line at CR", |case| with_bytes(case, |byte| if byte == b'\r' { b'\n' } else { byte })),
    ("takes - for a letter", |case| with_bytes(case, |byte| if byte == b'-' { b'_' } else { byte })),
    ("wants a line feed at the end", |case| {
        then(case, 0, |seen| {
            if case.text.last() != Some(&b'\n') {
                seen.lent = vec![case.circuit.clone().into()];
                refuse(seen, 14, case.text.len())
            }
        })
    }),
    ("reads no more than 32,768 bytes", |case| of_text(case, case.text[..case.text.len().min(32_768)].to_vec())),
];

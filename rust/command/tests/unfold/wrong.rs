//! Commands that unfold in a wrong way, one each: what the command gives is spoilt as theirs would be, and the comparison of drawn texts sees it.
use crate::drawn::Drawn;
use crate::harness::Directory;
use crate::Seen;
use cases::clocked::{pairs, state};
use cases::drawn as draw;
use second::Clocked;

/// The lines above the rows of a list.
const HEADS: usize = 3;

/// The data line and the state line of each flip-flop.
type States = Vec<[usize; 2]>;

/// What there is where the flip-flops are read as others, if these can be unfolded.
fn with_states(drawn: &Drawn, seen: &mut Seen, change: fn(&mut States)) {
    let mut states = pairs(&drawn.states);
    change(&mut states);
    let states: Vec<u8> = states.into_iter().flat_map(|[data, line]| state(data, line)).collect();
    if let Ok(other) = Clocked::read(&drawn.named.circuit.write(), &states, drawn.steps) {
        *seen = Seen::of(&other, &drawn.named);
    }
}

/// A record or a row, by its step, from 0, and its line.
struct Place<'a> {
    drawn: &'a Drawn,
    step: usize,
    line: usize,
}

impl Place<'_> {
    fn new(drawn: &Drawn, number: usize) -> Place<'_> {
        let each = drawn.named.names.len();
        Place { drawn, step: number / each, line: number % each }
    }

    fn is_last(&self) -> bool {
        self.step + 1 == self.drawn.steps as usize
    }

    /// A flip-flop behind a clock.
    fn is_clocked(&self) -> bool {
        self.step > 0 && pairs(&self.drawn.states).iter().any(|[_, line]| *line == self.line)
    }
}

fn with_records(drawn: &Drawn, seen: &mut Seen, change: fn(&Place, &mut [u8])) {
    seen.records.chunks_exact_mut(8).enumerate().for_each(|(number, record)| change(&Place::new(drawn, number), record));
}

fn with_rows(drawn: &Drawn, seen: &mut Seen, change: fn(&Place, &str) -> String) {
    seen.words.iter_mut().skip(HEADS).enumerate().for_each(|(number, row)| *row = change(&Place::new(drawn, number), row));
}

/// Does a wrong thing to what the command gives.
type Wrong = (&'static str, fn(&Drawn, &mut Seen));

/// By how flip-flops are read; by what is written; by what is printed.
const WRONG: [Wrong; 17] = [
    ("reads no flip-flop", |drawn, seen| with_states(drawn, seen, |states| states.clear())),
    ("forgets the last flip-flop", |drawn, seen| with_states(drawn, seen, |states| states.truncate(states.len().saturating_sub(1)))),
    ("gives each flip-flop the data of the next", |drawn, seen| {
        with_states(drawn, seen, |states| {
            let data: Vec<usize> = states.iter().map(|one| one[0]).collect();
            states.iter_mut().zip(data.iter().cycle().skip(1)).for_each(|(one, next)| one[0] = *next);
        })
    }),
    ("gives each flip-flop the data of the first", |drawn, seen| {
        with_states(drawn, seen, |states| (1..states.len()).for_each(|at| states[at][0] = states[0][0]))
    }),
    ("gives each flip-flop its own value", |drawn, seen| {
        with_states(drawn, seen, |states| states.iter_mut().for_each(|one| one[0] = one[1]))
    }),
    // records
    ("writes the records of one step", |drawn, seen| seen.records = drawn.named.circuit.write()),
    ("writes one step less", |drawn, seen| seen.records.truncate(seen.records.len() - 8 * drawn.named.names.len())),
    ("leaves what stood behind", |_, seen| seen.records.extend([0; 8])),
    ("writes flip-flops as inputs in each step", |drawn, seen| {
        with_records(drawn, seen, |place, record| {
            if place.is_clocked() {
                record.copy_from_slice(&[0, record[1], 0, 0, 0, 0, 0, 0]);
            }
        })
    }),
    ("writes the outputs of the last step alone", |drawn, seen| {
        with_records(drawn, seen, |place, record| record[1] &= u8::from(place.is_last()))
    }),
    // the list
    ("lists no line", |_, seen| seen.words.truncate(HEADS - 1)),
    ("lists all lines but the last", |_, seen| drop(seen.words.pop())),
    ("counts the lines of a step as those of all", |drawn, seen| {
        seen.words[0] = seen.words[0].replace(&format!("lines {},", seen.records.len() / 8), &format!("lines {},", drawn.named.names.len()))
    }),
    ("counts flip-flops in each step", |drawn, seen| {
        let (states, all) = (drawn.flip_flops(), drawn.flip_flops() * drawn.steps as usize);
        seen.words[1] = seen.words[1].replace(&format!("state lines {states}"), &format!("state lines {all}"));
    }),
    ("names lines without their steps", |drawn, seen| {
        with_rows(drawn, seen, |_, row| row.split(' ').map(|word| word.split('@').next().unwrap_or(word)).collect::<Vec<_>>().join(" "))
    }),
    ("names the data of a flip-flop by the flip-flop's step", |drawn, seen| {
        with_rows(drawn, seen, |place, row| match place.is_clocked() {
            true => row.replace(&format!("@{}", place.step), &format!("@{}", place.step + 1)),
            false => row.to_string(),
        })
    }),
    ("lists no data line as an output", |drawn, seen| {
        with_rows(drawn, seen, |place, row| match place.drawn.named.circuit.lines[place.line].output {
            true => row.to_string(),
            false => row.trim_end_matches(" output").to_string(),
        })
    }),
];

/// Each in some texts, and what the command gives in none.
#[test]
fn wrong_unfoldings_are_seen() {
    let directory = Directory::new("wrong");
    let mut times = [0; WRONG.len()];
    for drawn in draw(1, 50, Drawn::new).chain([Drawn::s27(3)]) {
        let (given, right) = (Seen::by_the_command(&directory, &drawn), Seen::right(&drawn));
        assert_eq!(given, right);
        for ((_, spoil), times) in WRONG.iter().zip(&mut times) {
            let mut spoilt = given.clone();
            spoil(&drawn, &mut spoilt);
            *times += usize::from(spoilt != right);
        }
    }
    let seen: Vec<_> = WRONG.iter().map(|(does, _)| does).zip(times).collect();
    assert!(times.iter().all(|&times| times > 5), "{seen:?}");
    println!("unfold: {} wrong commands, seen in so many of 51 texts: {times:?}", WRONG.len());
}

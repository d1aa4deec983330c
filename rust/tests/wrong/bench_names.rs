//! Names of a text's lines that are wrong in one way each.
use super::answered::{number, refuse, set_number, then};
use super::BenchNames;
use second::bench::{Text, Word};
use second::entries::{self, Seen};

/// What the second program says, where it accepts, with the places of all lines changed.
fn with_all(case: &BenchNames, change: impl FnOnce(&Text, &mut [u32])) -> Seen {
    then(case, 0, |seen| {
        let lines = number(seen);
        change(&Text::read(&case.text).expect("sound"), &mut seen.lent[0].u32()[..lines])
    })
}

/// The same with another place for each name, by the word that defines it.
fn with_each(case: &BenchNames, place: impl Fn(&Text, Word) -> usize) -> Seen {
    with_all(case, |text, places| {
        let names = text.place().expect("sound").names;
        places.iter_mut().zip(names).for_each(|(to, word)| *to = place(text, word) as u32)
    })
}

/// Where the names stand that are called like this one and are used.
fn uses<'a>(text: &'a Text, word: Word<'a>) -> impl Iterator<Item = usize> + 'a {
    text.used().filter(move |used| used.name == word.name).map(|used| used.at)
}

/// The line of the text in which a byte stands: its first byte, and the byte behind its last.
fn around(text: &[u8], place: usize) -> (usize, usize) {
    let from = text[..place].iter().rposition(|&byte| byte == b'\n').map_or(0, |end| end + 1);
    let to = text[place..].iter().position(|&byte| byte == b'\n').map_or(text.len(), |len| place + len);
    (from, to)
}

/// The text with blanks for each line that defines a name which is defined again behind it.
fn last_definitions(text: &[u8]) -> Vec<u8> {
    let defined = Text::read(text).expect("right in syntax").defined;
    let again = |word: &Word| defined.iter().any(|other| other.name == word.name && other.at > word.at);
    let mut left = text.to_vec();
    for word in defined.iter().filter(|word| again(word)) {
        let (from, to) = around(text, word.at);
        left[from..to].fill(b' ');
    }
    left
}

/// Another size of the places is refused before this number is.
fn places_before(case: &BenchNames, returned: u32) -> Seen {
    then(case, returned, |seen| {
        if case.places.len() != 2_048 {
            refuse(seen, 10, 0)
        }
    })
}

type Wrong = (&'static str, fn(&BenchNames) -> Seen);

pub const PROGRAMS: [Wrong; 21] = [
    ("gives the first use of a name", |case| with_each(case, |text, word| uses(text, word).min().unwrap_or(word.at))),
    ("gives the last use of a name", |case| with_each(case, |text, word| uses(text, word).max().unwrap_or(word.at))),
    ("gives where a name stands first, used or defined", |case| {
        with_each(case, |text, word| uses(text, word).chain([word.at]).min().expect("one at least"))
    }),
    ("looks for the letters of a name alone", |case| {
        with_each(case, |_, word| case.text.windows(word.name.len()).position(|bytes| bytes == word.name).expect("it is there"))
    }),
    ("counts lines of the text in place of bytes", |case| {
        with_each(case, |_, word| case.text[..word.at].iter().filter(|&&byte| byte == b'\n').count())
    }),
    ("gives the beginning of a name's line", |case| with_each(case, |_, word| around(&case.text, word.at).0)),
    ("gives the byte behind a name", |case| with_each(case, |_, word| word.at + word.name.len())),
    ("is one byte late", |case| with_each(case, |_, word| word.at + 1)),
    ("is one byte early", |case| with_each(case, |_, word| word.at.saturating_sub(1))),
    ("counts CR LF as one byte", |case| {
        with_each(case, |_, word| word.at - case.text[..word.at].windows(2).filter(|bytes| bytes == b"\r\n").count())
    }),
    ("keeps the lowest byte of a place", |case| with_each(case, |_, word| word.at % 256)),
    ("keeps the text's order", |case| with_all(case, |_, places| places.sort())),
    ("keeps the text's order of the gates", |case| with_all(case, |text, places| places[text.inputs.len()..].sort())),
    ("puts gates before inputs", |case| with_all(case, |text, places| places.rotate_left(text.inputs.len()))),
    ("clears the rest of the places", |case| {
        then(case, 0, |seen| {
            let lines = number(seen);
            seen.lent[0].u32()[lines..].fill(0)
        })
    }),
    ("answers the number of gates", |case| then(case, 0, |seen| set_number(seen, Text::read(&case.text).expect("sound").equations.len()))),
    ("takes the last definition of a name that has two", |case| {
        then(case, 15, |seen| *seen = entries::bench_names(&last_definitions(&case.text), &case.places, &case.answer))
    }),
    ("looks at the places before it looks at the text", |case| places_before(case, 14)),
    ("looks at the places before it looks at the circuit", |case| places_before(case, 5)),
    ("writes what fits, whatever the number of places", |case| {
        then(case, 10, |seen| {
            let mut full = entries::bench_names(&case.text, &[7; 2_048], &case.answer);
            seen.lent[0].u32().iter_mut().zip(full.lent[0].u32()).for_each(|(to, from)| *to = *from)
        })
    }),
    ("writes places though the circuit has no output", |case| {
        then(case, 5, |seen| {
            let names = Text::read(&case.text).expect("right in syntax").place().expect("no cycle").names;
            seen.lent[0].u32().iter_mut().zip(names).for_each(|(to, word)| *to = word.at as u32)
        })
    }),
];

//! The circuit check against the second program.
//!
//! `sound_circuits` and `damaged_circuits` compare 1,000,000 cases together; over the bridge that takes a few seconds.
#[path = "harness/defects.rs"]
mod defects;
mod harness;

use cases::circuits::{circuit, example_a, record, selecting, selector, small, BUFFER, INPUT, NOT, SELECTOR, XNOR};
use cases::selects::{self, WIRED};
use cases::{damage, drawn, Random, Sort};
use defects::defects;
use harness::{compare, first_defect_is_told, library, wrong_programs_are_seen, Case, Check, Defect};
use second::circuit::bad_fields;
use second::entries::{self, Seen};
use second::{Counts, Refusal};
use std::collections::BTreeSet;
use std::ops::Range;

impl Case for Check {
    fn second(&self) -> Seen {
        entries::check(&self.circuit, &self.answer)
    }

    fn sorts(&self, _: &mut Seen) -> Vec<Sort> {
        selects::all(&self.circuit, &[], &[])
    }
}

/// The circuits, each with an area that is full of junk and now and then has another size.
fn with_areas(circuits: impl Iterator<Item = Vec<u8>>) -> impl Iterator<Item = Check> {
    let mut random = Random::new(0);
    circuits.map(move |circuit| {
        let len = if random.once_in(20) { random.pick(&[0, 1, 8, 31, 33, 64]) } else { 32 };
        Check { circuit, answer: random.junk(len) }
    })
}

fn damaged(random: &mut Random) -> Vec<u8> {
    let mut circuit = small(random);
    damage::several(random, &mut circuit, damage::circuit);
    circuit
}

/// Every byte at every place of circuits of two lines, the second of every kind.
fn every_byte() -> impl Iterator<Item = Vec<u8>> {
    let places = (INPUT..=SELECTOR).flat_map(|kind| (0..16).map(move |place| (kind, place)));
    places.flat_map(|(kind, place)| {
        (0..=255).map(move |byte| {
            let mut circuit = [record(INPUT, false, 0, 0), record(kind, true, 0, 0)].concat();
            circuit[place] = byte;
            circuit
        })
    })
}

/// The sizes at which something changes, sound and with one or two defects.
fn boundaries() -> impl Iterator<Item = Vec<u8>> {
    let mut random = Random::new(3);
    let defects: [fn(&mut Vec<u8>); 7] = [
        |_| (),
        |circuit| circuit.chunks_exact_mut(8).for_each(|record| record[1] = 0),
        |circuit| circuit[0] = BUFFER,
        |circuit| *circuit.last_mut().unwrap() = 1,
        |circuit| circuit.push(0),
        |circuit| circuit.truncate(circuit.len() - 1),
        |circuit| circuit.extend(record(INPUT, false, 0, 0)),
    ];
    let mut all = vec![vec![]];
    for lines in [1, 2, 63, 64, 65, 66, 2046, 2047, 2048, 2049] {
        for inputs in [1, 2, 63, 64, 65, 66].into_iter().filter(|&inputs| inputs <= lines) {
            let sound = circuit(&mut random, lines, inputs);
            for one in defects {
                for other in defects {
                    let mut circuit = sound.clone();
                    one(&mut circuit);
                    other(&mut circuit);
                    all.push(circuit);
                }
            }
        }
    }
    all.into_iter()
}

/// The first number of an answer.
fn place(seen: &Seen) -> u64 {
    u64::from_le_bytes(seen.answer[..8].try_into().expect("eight bytes"))
}

/// Where the fields of a record begin.
const FIRST: [usize; 5] = [0, 1, 2, 4, 6];

/// Bytes that are wrong in the field of this line that begins there. A source is the line itself, or wrong in its second byte alone, or in both;
/// the select of another kind than a selector is lower than the line too.
fn wrong(sound: &[u8], line: usize, first: usize) -> Vec<Vec<u8>> {
    let not_lower = [(line.max(1) as u16).to_le_bytes().to_vec(), vec![0, 8], vec![255, 255]];
    match first {
        0 => vec![vec![10], vec![255]],
        1 => vec![vec![2], vec![255]],
        6 if sound[8 * line] != SELECTOR => [vec![1, 0], vec![0, 1]].into_iter().chain(not_lower).collect(),
        _ => not_lower.to_vec(),
    }
}

/// A field spoilt: where it begins in the circuit, and the bytes.
type Spoilt = (usize, Vec<u8>);

/// Every way to spoil one field of one of these lines.
fn spoilt_fields(sound: &[u8], lines: impl IntoIterator<Item = usize>) -> Vec<Spoilt> {
    let fields = lines.into_iter().flat_map(|line| FIRST.map(|first| (line, first)));
    fields.flat_map(|(line, first)| wrong(sound, line, first).into_iter().map(move |bytes| (8 * line + first, bytes))).collect()
}

/// Any two of these that spoil two fields, and each alone, taken twice.
fn pairs(fields: &[Spoilt]) -> impl Iterator<Item = Vec<Spoilt>> + '_ {
    let pairs = fields.iter().flat_map(|one| fields.iter().map(move |other| vec![one.clone(), other.clone()]));
    pairs.filter(|pair| pair[0] == pair[1] || pair[0].0 != pair[1].0)
}

/// A circuit with these fields spoilt.
fn spoilt(sound: &[u8], fields: &[Spoilt]) -> Check {
    let mut circuit = sound.to_vec();
    fields.iter().for_each(|(at, bytes)| circuit[*at..*at + bytes.len()].copy_from_slice(bytes));
    Check { circuit, answer: vec![7; 32] }
}

/// Of all fields that are spoilt the library tells the lowest, and so does the second program.
fn lowest_is_told(name: &str, sound: &[u8], cases: impl Iterator<Item = Vec<Spoilt>>) {
    let (mut checks, mut lowest) = (vec![], vec![]);
    for fields in cases {
        checks.push(spoilt(sound, &fields));
        lowest.push((2, fields.iter().map(|field| field.0 as u64).min().expect("a field")));
    }
    let told: Vec<_> = library(&checks).iter().map(|seen| (seen.returned, place(seen))).collect();
    let other = (0..checks.len()).find(|&k| told[k] != lowest[k]);
    assert_eq!(other.map(|k| (&checks[k].circuit, told[k], lowest[k])), None, "{name}");
    compare(name, checks.into_iter());
}

/// A line of every kind.
fn every_kind() -> Vec<u8> {
    let gate = |kind| record(kind, true, 1, if kind > NOT { 1 } else { 0 });
    let gates = (BUFFER..=XNOR).map(gate).chain([selector(true, 1, 1, 1)]);
    [record(INPUT, false, 0, 0); 2].into_iter().chain(gates).flatten().collect()
}

/// Refusal 2: each field wrong alone, any two in one line or in two, and any fields of a line together.
#[test]
fn fields() {
    let sound = every_kind();
    let lines = 0..sound.len() / 8;
    lowest_is_told("check, fields alone and in pairs", &sound, pairs(&spoilt_fields(&sound, lines.clone())));
    let chosen = |line: usize, some: u32| {
        let fields = (0..5).filter(|field| some >> field & 1 == 1).map(|field| FIRST[field]);
        fields.map(|first| (8 * line + first, wrong(&sound, line, first).swap_remove(0))).collect()
    };
    let together = lines.flat_map(|line| (1..32).map(move |some| (line, some))).map(|(line, some)| chosen(line, some));
    lowest_is_told("check, fields together", &sound, together);
}

/// The same in the first and the last lines of the largest circuits; with a record more, or a byte, refusal 1 comes before it.
#[test]
fn fields_of_the_largest() {
    for lines in [2047, 2048] {
        let sound = circuit(&mut Random::new(7), lines, 64);
        let fields = spoilt_fields(&sound, [0, lines - 2, lines - 1]);
        lowest_is_told("check, fields of the largest circuits", &sound, pairs(&fields));
    }
    let spoilt = circuit(&mut Random::new(7), 2049, 64).into_iter().map(|byte| byte | 128);
    let cases =
        [8 * 2049, 8 * 2048 + 1, 8 * 2048 - 1].map(|len| Check { circuit: spoilt.clone().take(len).collect(), answer: vec![7; 32] });
    assert_eq!(compare("check, larger circuits", cases.into_iter()).seen(), [1]);
}

#[test]
fn sound_circuits() {
    assert_eq!(compare("check, sound circuits", with_areas(drawn(1, 300_000, small))).with_sorts(&[&WIRED]).seen(), [0, 10]);
}

#[test]
fn damaged_circuits() {
    assert_eq!(
        compare("check, damaged circuits", with_areas(drawn(2, 700_000, damaged))).with_sorts(&[&WIRED]).seen(),
        [0, 1, 2, 4, 5, 10]
    );
}

#[test]
fn every_byte_and_all_boundaries() {
    assert_eq!(compare("check, every byte", with_areas(every_byte())).seen(), [0, 2, 5, 10]);
    assert_eq!(compare("check, boundaries", with_areas(boundaries())).with_sorts(&[&WIRED]).seen(), [0, 1, 2, 4, 5, 10]);
}

/// Sound circuits, and some with too many inputs or no output.
fn sound_lines(random: &mut Random) -> Vec<u8> {
    let mut circuit = if random.once_in(10) { circuit(random, 70, 66) } else { small(random) };
    if random.once_in(3) {
        circuit.chunks_exact_mut(8).for_each(|record| record[1] = 0);
    }
    circuit
}

/// Why no refusal has the number 3: with sound lines after it line 0 gets past refusal 2 as an input, and as no gate.
#[test]
fn line_0() {
    let of_each_kind = |circuit: Vec<u8>| (INPUT..=SELECTOR).map(move |kind| [&[kind], &circuit[1..]].concat());
    let circuits = drawn(6, 10_000, sound_lines).flat_map(of_each_kind);
    let cases: Vec<_> = circuits.map(|circuit| Check { circuit, answer: vec![7; 32] }).collect();
    let mut past = BTreeSet::new();
    for (case, seen) in cases.iter().zip(library(&cases)) {
        match case.circuit[0] {
            INPUT => past.extend([seen.returned]),
            _ => assert_eq!((seen.returned, place(&seen)), (2, 2), "{:?}", case.circuit),
        }
    }
    assert_eq!(past, BTreeSet::from([0, 4, 5]));
}

/// An area of another size comes before every other check, and stays.
#[test]
fn areas() {
    let circuits = [vec![], record(INPUT, true, 0, 0).to_vec(), record(BUFFER, true, 0, 0).to_vec()];
    let cases: Vec<_> =
        circuits.iter().flat_map(|circuit| (0..=80).map(|len| Check { circuit: circuit.clone(), answer: vec![7; len] })).collect();
    for (case, seen) in cases.iter().zip(library(&cases)) {
        assert_eq!(seen, case.second());
        let right = case.answer.len() == 32;
        assert_eq!((right, right), (seen.returned != 10, seen.answer != case.answer));
    }
}

/// The right check over a circuit in which some bytes of some records are cleared.
fn cleared(circuit: &[u8], bytes: Range<usize>, some: fn(usize, &[u8]) -> bool) -> Result<Counts, Refusal> {
    let mut circuit = circuit.to_vec();
    let records = circuit.chunks_exact_mut(8).enumerate();
    records.filter(|(line, record)| some(*line, record)).for_each(|(_, record)| record[bytes.clone()].fill(0));
    second::check(&circuit)
}

/// The right check, except that one refusal is given as another where the condition holds.
fn instead(circuit: &[u8], number: u32, condition: bool, other: u32) -> Result<Counts, Refusal> {
    second::check(circuit).map_err(|right| if right.number == number && condition { Refusal { number: other, place: 0 } } else { right })
}

/// The right check, except that refusal 2 tells another byte of the record: by the line, its record, and the first bad field of it.
fn elsewhere(circuit: &[u8], other: fn(usize, [u8; 8], usize) -> usize) -> Result<Counts, Refusal> {
    second::check(circuit).map_err(|right| match right {
        Refusal { number: 2, place } => {
            let line = place / 8;
            let record = circuit[8 * line..][..8].try_into().expect("a record");
            Refusal { place: 8 * line + other(line, record, place % 8), ..right }
        }
        _ => right,
    })
}

type Wrong = (&'static str, fn(&[u8]) -> Result<Counts, Refusal>);

const LOWER_SELECT: Wrong = ("lets another kind have a lower select", |c| {
    cleared(c, 6..8, |line, r| r[0] != SELECTOR && usize::from(u16::from_le_bytes([r[6], r[7]])) < line)
});

/// Programs that are wrong in one way each.
const WRONG: [Wrong; 23] = [
    ("refuses everything", |_| Err(Refusal { number: 1, place: 0 })),
    ("swaps two counts", |c| second::check(c).map(|n| Counts { inputs: n.outputs, outputs: n.inputs, ..n })),
    ("gives a place one too high", |c| elsewhere(c, |_, _, first| first + 1)),
    ("gives the line in place of the byte", |c| {
        second::check(c).map_err(|r| Refusal { place: r.place / if r.number == 2 { 8 } else { 1 }, ..r })
    }),
    ("gives the last bad field in place of the first", |c| {
        elsewhere(c, |line, record, _| *bad_fields(line, record).last().expect("a bad field"))
    }),
    ("gives a source's second byte", |c| elsewhere(c, |_, _, first| first + (first > 1) as usize)),
    ("gives a source's second byte where only that is wrong", |c| {
        elsewhere(c, |line, mut record, first| {
            record[first | 1] = 0;
            first + (first > 1 && !bad_fields(line, record).contains(&first)) as usize
        })
    }),
    ("lets a line read itself", |c| cleared(c, 2..4, |line, r| r[0] > 0 && line > 0 && r[2..4] == (line as u16).to_le_bytes())),
    ("lets line 0 read itself", |c| {
        let counts = cleared(c, 0..1, |line, r| line == 0 && r[0] <= SELECTOR && r[2..] == [0; 6]);
        counts.map(|n| Counts { inputs: n.inputs - usize::from(c[0] != INPUT), ..n })
    }),
    ("lets a buffer have a second source", |c| cleared(c, 4..6, |_, r| r[0] == BUFFER)),
    ("lets an input have a source", |c| cleared(c, 2..4, |_, r| r[0] == INPUT)),
    ("does not look at bytes 6 and 7 of other kinds", |c| cleared(c, 6..8, |_, r| r[0] != SELECTOR)),
    LOWER_SELECT,
    ("does not look at the select", |c| cleared(c, 6..8, |line, r| r[0] == SELECTOR && line > 0)),
    ("does not look at the high byte of a select", |c| cleared(c, 7..8, |_, r| r[0] == SELECTOR)),
    ("lets a selector select itself", |c| {
        cleared(c, 6..8, |line, r| r[0] == SELECTOR && line > 0 && r[6..8] == (line as u16).to_le_bytes())
    }),
    ("has no selectors", |c| {
        let later = c.iter().enumerate().map(|(at, &byte)| byte + u8::from(at % 8 == 0 && byte == SELECTOR));
        second::check(&later.collect::<Vec<_>>())
    }),
    ("takes any byte but 1 for no output", |c| cleared(c, 1..2, |_, r| r[1] > 1)),
    ("takes kind 10 for an input", |c| cleared(c, 0..1, |_, r| r[0] == 10)),
    ("asks for outputs before it counts inputs", |c| instead(c, 4, c.chunks_exact(8).all(|r| r[1] == 0), 5)),
    ("counts inputs before it looks at layouts", |c| instead(c, 2, c.chunks_exact(8).filter(|r| r[0] == INPUT).count() > 64, 4)),
    ("asks for an input before it looks at layouts", |c| instead(c, 2, c.chunks_exact(8).all(|r| r[0] != INPUT), 3)),
    ("looks at layouts before it looks at the size", |c| instead(c, 1, c.len() > 8 && c[0] == BUFFER, 2)),
];

#[test]
fn wrong_programs() {
    let cases: Vec<_> = with_areas(drawn(4, 20_000, damaged).chain(every_byte()).chain(boundaries())).collect();
    let with_area = |check: fn(&[u8]) -> Result<Counts, Refusal>| {
        move |case: &Check| entries::seen(&case.answer, vec![], check(&case.circuit).map(|counts| (counts.numbers(), vec![])))
    };
    wrong_programs_are_seen(&cases, WRONG.map(|(name, check)| (name, with_area(check))));
    let sound = every_kind();
    let alone: Vec<_> = spoilt_fields(&sound, 0..sound.len() / 8).into_iter().map(|field| spoilt(&sound, &[field])).collect();
    wrong_programs_are_seen(&alone, [LOWER_SELECT].map(|(name, check)| (name, with_area(check))));
    wrong_programs_are_seen(&cases, [("takes any area", |case: &Check| entries::check(&case.circuit, &[0; 32]))]);
}

#[test]
fn two_defects_at_once() {
    let defects: [Defect<Check>; 10] = defects![];
    first_defect_is_told(&Check { circuit: selecting(), answer: vec![7; 32] }, &defects);
}

/// The safe calls, on the marked examples and beside the second program.
#[test]
fn bindings() {
    let check = |circuit: &[u8]| match ullimaqsu::check(circuit) {
        Ok(ullimaqsu::Counts { lines, inputs, outputs }) => Ok([lines, inputs, outputs]),
        Err(ullimaqsu::Refusal { number, place, field }) => {
            assert_eq!(field.map(|field| field.byte), (number == 2).then_some(place));
            Err((number, place))
        }
    };
    let inputs = |count, output| record(INPUT, output, 0, 0).repeat(count);
    assert_eq!(check(&example_a()), Ok([5, 3, 1]));
    assert_eq!(check(&inputs(64, true)), Ok([64, 64, 64]));
    assert_eq!(check(&inputs(65, true)), Err((4, 0)));
    assert_eq!(check(&inputs(65, false)), Err((4, 0)));
    assert_eq!(check(&inputs(64, false)), Err((5, 0)));
    assert_eq!(check(&record(BUFFER, true, 0, 0)), Err((2, 2)));
    assert_eq!(check(&[record(INPUT, true, 0, 0), record(NOT, true, 1, 0)].concat()), Err((2, 10)));
    assert_eq!(check(&[record(INPUT, false, 0, 0), selector(true, 0, 0, 0)].concat()), Ok([2, 1, 1]));
    assert_eq!(check(&[record(INPUT, false, 0, 0), selector(true, 0, 0, 1)].concat()), Err((2, 14)));
    assert_eq!(check(&[record(INPUT, false, 0, 0), record(SELECTOR + 1, true, 0, 0)].concat()), Err((2, 8)));
    assert_eq!(check(&[]), Err((1, 0)));
    for circuit in drawn(5, 1_000, damaged) {
        let said = second::check(&circuit).map(|Counts { lines, inputs, outputs }| [lines, inputs, outputs].map(|count| count as u64));
        assert_eq!(check(&circuit), said.map_err(|Refusal { number, place }| (number, place as u64)));
    }
}

//! Commands that are wrong in one way each: in drawn circuits what they print is told from what the command prints.
use crate::chances::{rows, ways, Row, Rule, Ways, RIGHT};
use crate::harness::named::Named;
use crate::harness::Directory;
use crate::{all, control, right, shown, sorted, table, FOOT};

/// What it prints for a circuit.
type Wrong = (&'static str, fn(&Named) -> String);

/// The rows as the lines stand, with something done to them.
fn unsorted(named: &Named, change: fn(&mut [Row])) -> String {
    let mut rows = rows(named, RIGHT);
    change(&mut rows);
    table(&rows)
}

/// The sorted rows, with something done to them.
fn changed(named: &Named, change: fn(&mut Vec<Row>)) -> String {
    let mut rows = sorted(rows(named, RIGHT));
    change(&mut rows);
    table(&rows)
}

/// The sorted rows, with something done to each.
fn each(named: &Named, change: fn(&mut Row)) -> String {
    let mut rows = sorted(rows(named, RIGHT));
    rows.iter_mut().for_each(change);
    table(&rows)
}

/// What is printed, with something done to each line.
fn lines(named: &Named, change: fn(&str) -> String) -> String {
    right(named).lines().map(|line| change(line) + "\n").collect()
}

/// The right table of chances that are made in another way.
fn ruled(named: &Named, rule: Rule) -> String {
    table(&sorted(rows(named, rule)))
}

fn by_ways(named: &Named, ways: Ways) -> String {
    ruled(named, Rule { ways, ..RIGHT })
}

/// The order of the rows; which there are; what is shown; what is said last; halvings and floors; the ways of gates.
const WRONG: [Wrong; 39] = [
    ("keeps the order of the lines", |named| unsorted(named, |_| ())),
    ("begins with the hardest", |named| changed(named, |rows| rows.reverse())),
    ("goes by the chance of 1", |named| unsorted(named, |rows| rows.sort_by_key(|row| row.one))),
    ("goes by the chance of 0", |named| unsorted(named, |rows| rows.sort_by_key(|row| row.zero))),
    ("goes by the easier value", |named| unsorted(named, |rows| rows.sort_by_key(|row| row.one.min(row.zero)))),
    ("goes by both values together", |named| unsorted(named, |rows| rows.sort_by_key(|row| row.one + row.zero))),
    ("goes by the harder value alone", |named| unsorted(named, |rows| rows.sort_by_key(|row| row.hardness().0))),
    ("has equal rows by name", |named| unsorted(named, |rows| rows.sort_by_key(|row| (row.hardness(), row.line)))),
    ("has equal rows by their chance of 1", |named| unsorted(named, |rows| rows.sort_by_key(|row| (row.hardness(), row.one)))),
    ("has equal rows backwards", |named| {
        unsorted(named, |rows| {
            rows.reverse();
            rows.sort_by_key(Row::hardness);
        })
    }),
    ("has exponents in the order of words", |named| unsorted(named, |rows| rows.sort_by_key(|row| shown(row.hardness().0)))),
    // which rows
    ("leaves out the last row", |named| changed(named, |rows| rows.truncate(rows.len() - 1))),
    ("puts the first row last", |named| changed(named, |rows| rows.rotate_left(1))),
    ("leaves out what is easy", |named| changed(named, |rows| rows.retain(|row| row.hardness().0 > 0))),
    ("shows one of equal rows", |named| changed(named, |rows| rows.dedup_by_key(|row| row.hardness()))),
    // what is shown
    ("exchanges 1 and 0", |named| each(named, |row| (row.one, row.zero) = (row.zero, row.one))),
    ("shows the chance of 1 twice", |named| each(named, |row| row.zero = row.one)),
    ("shows the harder value first", |named| each(named, |row| (row.one, row.zero) = row.hardness())),
    ("shows the chances of the next row", |named| {
        changed(named, |rows| (1..rows.len()).for_each(|at| (rows[at - 1].one, rows[at - 1].zero) = (rows[at].one, rows[at].zero)))
    }),
    ("shows no head", |named| right(named).lines().skip(1).map(|line| line.to_string() + "\n").collect()),
    ("shows exponents without their sign", |named| lines(named, |line| line.replace("2^-", "2^"))),
    ("shows 1 as a power", |named| lines(named, |line| line.strip_suffix(" 1").map_or(line.to_string(), |rest| format!("{rest} 2^-0")))),
    ("puts one blank between cells", |named| lines(named, |line| line.split_whitespace().collect::<Vec<_>>().join(" "))),
    // what is said last
    ("never says what 2^-500 stands for", |named| right(named).replace(FOOT, "")),
    ("always says what 2^-500 stands for", |named| right(named).replace(FOOT, "") + FOOT),
    ("says first what 2^-500 stands for", |named| match right(named).strip_suffix(FOOT) {
        Some(table) => FOOT.to_string() + table,
        None => right(named),
    }),
    // halvings and floors
    ("takes no half", |named| ruled(named, Rule { halvings: |_| 0, ..RIGHT })),
    ("takes half at every pin", |named| ruled(named, Rule { halvings: |_| 1, ..RIGHT })),
    ("takes half where three pins read", |named| ruled(named, Rule { halvings: |pins| u32::from(pins > 2), ..RIGHT })),
    ("takes half for each further pin", |named| ruled(named, Rule { halvings: |pins| pins as u32 - 1, ..RIGHT })),
    ("has its floor at 2^-499", |named| ruled(named, Rule { most: 499, ..RIGHT })),
    ("has its floor at 2^-501", |named| ruled(named, Rule { most: 501, ..RIGHT })),
    // the ways of gates
    ("takes either pin for the 1 of an AND", |named| {
        by_ways(named, |kind, value| match (kind, value) {
            ("AND", true) => &["1-", "-1"],
            _ => ways(kind, value),
        })
    }),
    ("takes both pins for the 1 of an OR", |named| {
        by_ways(named, |kind, value| match (kind, value) {
            ("OR", true) => &["11"],
            _ => ways(kind, value),
        })
    }),
    ("takes the first way of an XOR", |named| {
        by_ways(named, |kind, value| match kind {
            "XOR" => &ways(kind, value)[..1],
            _ => ways(kind, value),
        })
    }),
    ("exchanges the values of XOR", |named| by_ways(named, |kind, value| ways(kind, value != (kind == "XOR")))),
    ("exchanges the values of NOT", |named| by_ways(named, |kind, value| ways(kind, value != (kind == "NOT")))),
    ("takes the other source of a selector", |named| {
        by_ways(named, |kind, value| match (kind, value) {
            ("SELECTOR", false) => &["0-1", "-00"],
            ("SELECTOR", true) => &["1-1", "-10"],
            _ => ways(kind, value),
        })
    }),
    ("needs no select where both sources will do", |named| {
        by_ways(named, |kind, value| match (kind, value) {
            ("SELECTOR", false) => &["0-0", "-01", "00-"],
            ("SELECTOR", true) => &["1-0", "-11", "11-"],
            _ => ways(kind, value),
        })
    }),
];

/// Each in some circuits, and what the command prints in none.
#[test]
fn wrong_commands_are_seen() {
    let directory = Directory::new("wrong control");
    let mut times = [0; WRONG.len()];
    for (path, named) in all(&directory, 25) {
        let printed = control(&path);
        assert_eq!(printed, right(&named));
        WRONG.iter().zip(&mut times).for_each(|((_, wrong), times)| *times += usize::from(wrong(&named) != printed));
    }
    let seen: Vec<_> = WRONG.iter().map(|(does, _)| does).zip(times).collect();
    assert!(times.iter().all(|&times| times > 5), "{seen:?}");
    println!("control: {} wrong commands, seen in so many of 100 circuits: {times:?}", WRONG.len());
}

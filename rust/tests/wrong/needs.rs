//! Needs that are not those of a table, and tables that are read wrongly.
use second::compact::{needs, Need, Row};
use second::Entry;

/// That the detected faults stay detected, and nothing else.
pub fn faults_alone(table: &[Row]) -> Vec<Need> {
    needs(table).into_iter().filter(|need| matches!(need, Need::Detected(_))).collect()
}

/// That the pairs stay told apart, and nothing else.
pub fn pairs_alone(table: &[Row]) -> Vec<Need> {
    needs(table).into_iter().filter(|need| matches!(need, Need::Apart(..))).collect()
}

/// Of pairs with a fault that is not detected too, that they stay told apart.
pub fn undetected_too(table: &[Row]) -> Vec<Need> {
    let faults = table[0].len();
    let pairs = (0..faults).flat_map(|other| (0..other).map(move |one| Need::Apart(one, other)));
    faults_alone(table).into_iter().chain(pairs.filter(|need| need.is_met(table.iter()))).collect()
}

/// The same table with another entry for unknown.
pub fn read_as(table: &[Row], unknown: Entry) -> Vec<Row> {
    let entry = |&entry: &Entry| if entry == Entry::Unknown { unknown } else { entry };
    table.iter().map(|row| row.iter().map(entry).collect()).collect()
}

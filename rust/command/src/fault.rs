//! Faults, by the names of their lines.
use crate::circuit::Circuit;
use crate::kind::MOST_PINS;
use crate::lists::{self, lines, place, words};
use crate::nearest::offered;
use crate::problem::Problem;
use crate::words::cited;
use std::path::Path;
use ullimaqsu::Refusal;

#[derive(Clone, Copy, PartialEq, Eq, Hash, Debug)]
pub struct Fault {
    pub line: usize,
    /// 0 for the line itself, or its pin, 1 to 3.
    pub site: usize,
    /// What it is stuck at.
    pub value: bool,
}

impl Fault {
    /// As the library reads it.
    pub fn record(self) -> [u8; 8] {
        let [low, high] = (self.line as u16).to_le_bytes();
        [low, high, self.site as u8, u8::from(self.value), 0, 0, 0, 0]
    }

    /// The fault of a record, or what is wrong with it: the first that is, in the order in which the library looks.
    fn of_record(record: &[u8], circuit: &Circuit) -> Result<Fault, String> {
        let (line, last) = (usize::from(u16::from_le_bytes([record[0], record[1]])), circuit.size() - 1);
        if line > last {
            return Err(format!("its line number is {line}, and the last is {last}"));
        }
        let site = match record[2] {
            0 => 0,
            pin => read_pin(&pin.to_string(), line, circuit)?,
        };
        let value = match record[3] {
            0 => false,
            1 => true,
            other => return Err(format!("its stuck value is {other}, which is neither 0 nor 1")),
        };
        match record[4..] {
            [0, 0, 0, 0] => Ok(Fault { line, site, value }),
            _ => Err("its bytes 4 to 7 are not all 0".to_string()),
        }
    }

    /// As a user writes it: `G9/0`, or `G9.1/0` at its first pin.
    pub fn named(self, circuit: &Circuit) -> String {
        let (name, value) = (circuit.name(self.line), u8::from(self.value));
        match self.site {
            0 => format!("{name}/{value}"),
            pin => format!("{name}.{pin}/{value}"),
        }
    }

    /// The fault that a word names, or what is wrong with it.
    pub fn read(word: &str, circuit: &Circuit) -> Result<Fault, String> {
        let no_fault = |since: &str| format!("{} is no fault: {since}", cited(word));
        let (place, value) = word.rsplit_once('/').ok_or_else(|| {
            no_fault("it is written NAME/0 or NAME/1, at a pin NAME.1/0 or NAME.2/0, and at a selector's select NAME.3/0")
        })?;
        let value = match value {
            "0" => false,
            "1" => true,
            _ => return Err(no_fault("after `/` there must be 0 or 1, what the line is stuck at")),
        };
        let (name, pin) = place.split_once('.').map_or((place, None), |(name, pin)| (name, Some(pin)));
        let names = || circuit.names().iter().map(String::as_str);
        let line = circuit.line(name).ok_or_else(|| format!("there is no line {}{}", cited(name), offered(name, names())))?;
        let site = pin.map_or(Ok(0), |pin| read_pin(pin, line, circuit))?;
        Ok(Fault { line, site, value })
    }

    /// The fault that a word of the command line names.
    pub fn given(word: &str, circuit: &Circuit) -> Result<Fault, Problem> {
        Fault::read(word, circuit).map_err(Problem::Refused)
    }
}

/// The number of a pin that the line's gate has.
fn read_pin(pin: &str, line: usize, circuit: &Circuit) -> Result<usize, String> {
    let pins = circuit.kind(line).pins();
    match (1..=pins).find(|number| number.to_string() == pin) {
        Some(number) => Ok(number),
        None => {
            const HAS: [&str; MOST_PINS + 1] = ["no pins", "pin 1 alone", "pins 1 and 2", "pins 1 to 3"];
            let has = HAS[pins];
            Err(format!("`{}` has no pin {}: it is {} with {has}", circuit.name(line), cited(pin), circuit.kind(line).word()))
        }
    }
}

/// The faults of a file.
pub fn load(path: &Path, circuit: &Circuit) -> Result<Vec<Fault>, Problem> {
    lists::load(path, "fault", |text| of_text(text, circuit), |records| of_records(records, circuit))
}

fn of_records(bytes: &[u8], circuit: &Circuit) -> Result<Vec<Fault>, String> {
    if !bytes.len().is_multiple_of(8) {
        return Err(format!("records of faults have 8 bytes each, and {} bytes are no multiple of that", bytes.len()));
    }
    let refused = |place, says| format!("{}: {says}", Refusal::new(7, place));
    let one = |(place, record)| Fault::of_record(record, circuit).map_err(|says| refused(place, says));
    (0..).zip(bytes.chunks_exact(8)).map(one).collect()
}

fn of_text(bytes: &[u8], circuit: &Circuit) -> Result<Vec<Fault>, String> {
    let mut faults = Vec::new();
    for (number, line) in (1..).zip(lines(bytes)) {
        let mut words = words(&line);
        let Some((column, word)) = words.next() else { continue };
        faults.push(Fault::read(word, circuit).map_err(|says| place(number, column, &says))?);
        if let Some((column, word)) = words.next() {
            return Err(place(number, column, &format!("a line has one fault, and here follows {}", cited(word))));
        }
    }
    Ok(faults)
}

/// All faults of a circuit: each line stuck at 0 and at 1, and then its pins.
pub fn all(circuit: &Circuit, pins: bool) -> Vec<Fault> {
    let sites = |line| 0..=if pins { circuit.kind(line).pins() } else { 0 };
    let places = (0..circuit.size()).flat_map(|line| sites(line).map(move |site| (line, site)));
    places.flat_map(|(line, site)| [false, true].map(|value| Fault { line, site, value })).collect()
}

/// Faults as the library reads them, one after the other.
pub fn records(faults: &[Fault]) -> Vec<u8> {
    faults.iter().flat_map(|fault| fault.record()).collect()
}

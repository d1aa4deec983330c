//! Clocked circuits: texts with flip-flops, `Q = DFF(D)`, as the ISCAS sequential circuits are written.
//!
//! The library reads no flip-flops. Each becomes an input of its name before the library sees the text, and a state record. `INPUT(Q)` is never
//! longer than `Q=DFF(D)`, and blanks fill what is left: every other byte stands where it stood, and the text is as long as it was.
use crate::circuit::{is_records, read_file, read_text, Circuit, NO_TEXT};
use crate::edit::{Edit, Edited, Piece};
use crate::explain::{explain_statements, explain_stuck, NAME, SYNTAX};
use crate::notation::{FlipFlop, Spelling, Text};
use crate::problem::Problem;
use std::path::Path;
use ullimaqsu::Refusal;

/// What takes clocked circuits as records.
const OF_RECORDS: &str = "records of clock steps are what `ullimaqsu dictionary DIR --steps K` takes, with states.rec in the directory";

#[derive(Debug)]
pub struct Clocked {
    /// The circuit of one step, whose state lines are inputs.
    pub circuit: Circuit,
    /// Its state records.
    pub states: Vec<u8>,
}

impl Clocked {
    /// Of a file that is a text.
    pub fn load(path: &Path) -> Result<Clocked, Problem> {
        let (file, bytes) = read_file(path)?;
        match is_records(&bytes) {
            true => Err(Problem::Refused(format!("{file}: {NO_TEXT}; {OF_RECORDS}"))),
            false => Clocked::of_text(&file, &bytes),
        }
    }

    /// Of a text with flip-flops or without.
    pub fn of_text(file: &str, bytes: &[u8]) -> Result<Clocked, Problem> {
        let refused = |says: String| Problem::Refused(format!("{file}: {says}"));
        let text = Text::read(bytes, Spelling::Clocked).map_err(|stuck| refused(explain_stuck(bytes, &stuck)))?;
        let read = read(&text).map_err(|refusal| refused(explain_statements(&text, &refusal)))?;
        Ok(Clocked { circuit: Circuit::named(file, read.records, read.names)?, states: read.states })
    }
}

/// What a text with flip-flops comes to.
pub struct Read {
    /// The circuit of one step.
    pub records: Vec<u8>,
    /// The names of its lines.
    pub names: Vec<String>,
    /// Its state records, in the order of the flip-flops.
    pub states: Vec<u8>,
}

/// Reads it, or gives the refusal, with its place in this text.
pub fn read(text: &Text) -> Result<Read, Refusal> {
    let plain = plain(text);
    let (records, names) = read_text(&plain.bytes).map_err(|refusal| of_the_clocked(text, &plain, refusal))?;
    let states = text.flip_flops().map(|flip_flop| state_record(flip_flop, &names)).collect::<Result<Vec<_>, _>>()?;
    Ok(Read { records, names, states: states.concat() })
}

/// A refusal of the plain text as one of the clocked text. The library does not see data lines: where one is defined nowhere, this is refused as
/// the library refuses other names, the lowest place first, and before what it asks after names.
fn of_the_clocked(text: &Text, plain: &Edited, refusal: Refusal) -> Refusal {
    let mut data = text.flip_flops().map(|flip_flop| flip_flop.data);
    let undefined = data.find(|data| text.definitions().all(|defined| defined.name != data.name)).map(|data| data.at);
    let seen = (refusal.number == NAME).then(|| plain.origin(refusal.place as usize));
    match undefined.into_iter().chain(seen).min() {
        Some(place) if refusal.number != SYNTAX => Refusal::new(NAME, place as u64),
        _ => refusal,
    }
}

/// The text with an input for each flip-flop.
fn plain(text: &Text) -> Edited {
    Edited::new(text.bytes, &text.flip_flops().map(as_input).collect::<Vec<_>>())
}

fn as_input<'a>(flip_flop: &FlipFlop<'a>) -> Edit<'a> {
    const BEFORE: &str = "INPUT(";
    let FlipFlop { state, end, .. } = *flip_flop;
    // `=DFF(D)` has seven bytes at least, as many as `INPUT()`
    let blanks = end - state.end() - BEFORE.len() - 1;
    let put = vec![Piece::New(BEFORE.to_string()), Piece::Kept(state), Piece::New(format!("){:blanks$}", ""))];
    Edit { from: state.at, to: end, put }
}

/// Data line and state line by the names that the library has given. The state line is there, as an input.
fn state_record(flip_flop: &FlipFlop, names: &[String]) -> Result<[u8; 4], Refusal> {
    let [data, state] = [flip_flop.data, flip_flop.state].map(|word| {
        let line = names.iter().position(|name| name.as_bytes() == word.name);
        line.map(|line| (line as u16).to_le_bytes()).ok_or(Refusal::new(NAME, word.at as u64))
    });
    let ([low, high], [state_low, state_high]) = (data?, state?);
    Ok([low, high, state_low, state_high])
}

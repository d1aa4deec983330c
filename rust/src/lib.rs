//! Safe calls of Ullimaqsu, the proved test tools for combinational circuits and single stuck-at faults.
//!
//! Circuits are the bytes of their records, as `include/ullimaqsu.h` describes them; [`bench`] makes them of a text in the bench notation, and
//! [`bench_names`] says what the text calls their lines. Every call takes any bytes; what is wrong with them comes back as a [`Refusal`].
//! [`unfold`] makes one circuit of several clock steps of another, and [`unfold_dictionary`] makes the dictionary of that. [`control`] says how
//! hard lines are to set.
//! Calls keep nothing; what a tester's reports leave of the suspects is held by the caller, in [`Suspects`]. [`raw`] has the same entries with
//! nothing interpreted.
//!
//! On x86-64 the archive is linked. Elsewhere each thread that calls starts the bridge, an x86-64 program under the kit's emulator:
//! right for tests, and slow.

mod control;
mod entries;
mod field;
pub mod raw;
mod refusal;
mod steps;
mod suspects;

#[cfg(any(not(direct), test))]
mod bridge;
#[cfg(direct)]
mod direct;

pub use control::control;
pub use field::BadField;
pub use refusal::{refusals, Meaning, Refusal};
pub use steps::{unfold, unfold_dictionary};
pub use suspects::{Suspects, SUSPECTS};

use raw::{enter, Call};
use refusal::{answered, answered_of};

/// The numbers of an accepted circuit.
#[derive(Clone, Copy, Debug, PartialEq, Eq)]
pub struct Counts {
    pub lines: u64,
    pub inputs: u64,
    pub outputs: u64,
}

/// How a search ended, with the header's numbers.
#[derive(Clone, Copy, Debug, PartialEq, Eq)]
pub enum Outcome {
    /// The test buffer holds a test.
    Test = 0,
    /// There is no test.
    Redundant = 1,
    /// The search would have looked at more nodes than the budget allows.
    GivenUp = 2,
}

impl Outcome {
    /// The outcome that an entry gave as this number.
    fn numbered(number: u64) -> Outcome {
        let outcomes = [Outcome::Test, Outcome::Redundant, Outcome::GivenUp];
        outcomes.into_iter().find(|&outcome| outcome as u64 == number).expect("a search ends in one of three ways")
    }
}

/// How a search ended, and how many nodes it looked at.
#[derive(Clone, Copy, Debug, PartialEq, Eq)]
pub struct Search {
    pub outcome: Outcome,
    pub nodes: u64,
}

/// What an audit finds of a kept list: that it is sound, or the first of the others that holds, at its lowest place.
#[derive(Clone, Copy, Debug, PartialEq, Eq)]
pub enum Finding {
    /// Every need is met, and no kept pattern can be spared.
    Sound,
    /// This mark is neither 0 nor 1.
    BadMark(u64),
    /// This fault is detected, and failed by no kept pattern.
    LostFault(u64),
    /// These two faults, the lower one first, are detected and told apart, and told apart by no kept pattern.
    LostPair(u64, u64),
    /// Without this pattern the others that are kept still meet every need.
    SparePattern(u64),
}

impl Finding {
    /// The finding that an entry gave as these numbers.
    fn numbered([number, first, second, _]: [u64; 4]) -> Finding {
        match number {
            0 => Finding::Sound,
            1 => Finding::BadMark(first),
            2 => Finding::LostFault(first),
            3 => Finding::LostPair(first, second),
            4 => Finding::SparePattern(first),
            other => panic!("an audit has five findings, and {other} is none"),
        }
    }
}

/// The numbers of a clause list.
#[derive(Clone, Copy, Debug, PartialEq, Eq)]
pub struct Clauses {
    pub words: u64,
    pub clauses: u64,
    pub variables: u64,
}

/// The circuit check: the numbers of lines, inputs and outputs, or what is wrong.
///
/// ```
/// let not = [0, 0, 0, 0, 0, 0, 0, 0, 2, 1, 0, 0, 0, 0, 0, 0];
/// assert_eq!(ullimaqsu::check(&not), Ok(ullimaqsu::Counts { lines: 2, inputs: 1, outputs: 1 }));
/// let refusal = ullimaqsu::check(&not[..8]).unwrap_err();
/// assert_eq!(refusal.to_string(), "refusal 5: the circuit has no output");
/// let refusal = ullimaqsu::check(&not[8..]).unwrap_err();
/// assert_eq!(refusal.to_string(), "refusal 2: line 0, first source (byte 2): 0 is not lower than the line");
/// ```
pub fn check(circuit: &[u8]) -> Result<Counts, Refusal> {
    let mut area = [0; 32];
    let returned = enter(Call::Check { circuit, answer: &mut area });
    let [lines, inputs, outputs, _] = answered_of(circuit, returned, area)?;
    Ok(Counts { lines, inputs, outputs })
}

/// The dictionary maker. Fills the table, one row for each pattern and in it one byte for each fault: 0 pass, 1 fail, 2 unknown; its length is
/// the number of faults times that of patterns. An output whose good value under the pattern is X is masked, as a tester does: nothing is
/// compared there. The work memory, two bytes for each line, then holds the good and the faulty values of the last pattern with the last
/// fault. A refusal writes nothing.
///
/// ```
/// let not = [0, 0, 0, 0, 0, 0, 0, 0, 2, 1, 0, 0, 0, 0, 0, 0];
/// let output_stuck_at_0 = [1, 0, 0, 0, 0, 0, 0, 0];
/// let (mut table, mut work) = ([0; 3], [0; 4]);
/// ullimaqsu::dictionary(&not, &output_stuck_at_0, &[0, 1, 2], &mut table, &mut work)?;
/// assert_eq!(table, [1, 0, 0]);
/// assert_eq!(work, [2, 2, 2, 0]);
/// # Ok::<(), ullimaqsu::Refusal>(())
/// ```
pub fn dictionary(circuit: &[u8], faults: &[u8], patterns: &[u8], table: &mut [u8], work: &mut [u8]) -> Result<(), Refusal> {
    let mut area = [0; 32];
    let returned = enter(Call::Dictionary { circuit, faults, patterns, table, work, answer: &mut area });
    answered_of(circuit, returned, area).map(|_| ())
}

/// The dictionary maker that carries 64 patterns at once, one in each bit of a word. Fills the table as [`dictionary`] does. The patterns go in
/// groups of 64, and the spare lanes of the last group carry a pattern of all X. The work memory, four words for each line, then holds the last
/// group with the last fault: for each line the word of those lanes where it is 1 and the word of those where it is 0, bit i for the group's
/// pattern i, first the good ones of all lines and then the faulty ones. What is stuck is stuck in the spare lanes too. A refusal writes
/// nothing.
///
/// ```
/// let not = [0, 0, 0, 0, 0, 0, 0, 0, 2, 1, 0, 0, 0, 0, 0, 0];
/// let output_stuck_at_0 = [1, 0, 0, 0, 0, 0, 0, 0];
/// let (mut table, mut work) = ([9; 3], [9; 8]);
/// ullimaqsu::dictionary_lanes(&not, &output_stuck_at_0, &[0, 1, 2], &mut table, &mut work)?;
/// assert_eq!(table, [1, 0, 0]);
/// assert_eq!(work[..4], [0b010, 0b001, 0b001, 0b010]);
/// assert_eq!(work[4..], [0b010, 0b001, 0, u64::MAX]);
/// # Ok::<(), ullimaqsu::Refusal>(())
/// ```
pub fn dictionary_lanes(circuit: &[u8], faults: &[u8], patterns: &[u8], table: &mut [u8], work: &mut [u64]) -> Result<(), Refusal> {
    let mut area = [0; 32];
    let returned = enter(Call::DictionaryLanes { circuit, faults, patterns, table, work, answer: &mut area });
    answered_of(circuit, returned, area).map(|_| ())
}

/// The compactor. Marks each pattern of a table, 1 kept or 0 dropped, so that the kept ones detect every fault and tell apart every pair of
/// detected faults that the whole table does, and none of them can be spared. A refusal writes nothing.
///
/// ```
/// let table = [1, 0, 0, 1, 0, 1, 1, 0, 0, 1, 1, 0, 0, 0, 0, 0];
/// let mut marks = [9; 4];
/// ullimaqsu::compact(4, 4, &table, &mut marks)?;
/// assert_eq!(marks, [1, 1, 0, 0]);
/// # Ok::<(), ullimaqsu::Refusal>(())
/// ```
pub fn compact(fault_count: u64, pattern_count: u64, table: &[u8], marks: &mut [u8]) -> Result<(), Refusal> {
    let mut area = [0; 32];
    let returned = enter(Call::Compact { fault_count, pattern_count, table, marks, answer: &mut area });
    answered(returned, area).map(|_| ())
}

/// The audit of a kept list, whichever tool has made it: the first thing that is wrong with the marks of a table, or that they are sound. The
/// lists of [`compact`] always are, and others may be so too.
///
/// ```
/// use ullimaqsu::{audit, Finding};
/// let table = [1, 0, 0, 1, 0, 1, 1, 0, 0, 1, 1, 0, 0, 0, 0, 0];
/// assert_eq!(audit(4, 4, &table, &[1, 0, 1, 0])?, Finding::Sound);
/// assert_eq!(audit(4, 4, &table, &[1, 0, 0, 0])?, Finding::LostFault(1));
/// assert_eq!(audit(4, 4, &table, &[1, 1, 1, 0])?, Finding::SparePattern(1));
/// # Ok::<(), ullimaqsu::Refusal>(())
/// ```
pub fn audit(fault_count: u64, pattern_count: u64, table: &[u8], marks: &[u8]) -> Result<Finding, Refusal> {
    let mut area = [0; 32];
    let returned = enter(Call::Audit { fault_count, pattern_count, table, marks, answer: &mut area });
    answered(returned, area).map(Finding::numbered)
}

/// The test search for one fault, looking at no more nodes than the budget. The test buffer, one byte for each input, is written only for a
/// test. The work memory, two bytes for each line, then holds the good and the faulty values of the last node; with budget 0 it stays. A
/// refusal writes nothing.
///
/// ```
/// use ullimaqsu::{search, Outcome};
/// let not = [0, 0, 0, 0, 0, 0, 0, 0, 2, 1, 0, 0, 0, 0, 0, 0];
/// let output_stuck_at_0 = [1, 0, 0, 0, 0, 0, 0, 0];
/// let (mut test, mut work) = ([9], [9; 4]);
/// let found = search(&not, &output_stuck_at_0, u64::MAX, &mut test, &mut work)?;
/// assert_eq!((found.outcome, found.nodes, test), (Outcome::Test, 2, [0]));
/// # Ok::<(), ullimaqsu::Refusal>(())
/// ```
pub fn search(circuit: &[u8], fault: &[u8], budget: u64, test: &mut [u8], work: &mut [u8]) -> Result<Search, Refusal> {
    let mut area = [0; 32];
    let returned = enter(Call::Search { circuit, fault, budget, test, work, answer: &mut area });
    searched(circuit, returned, area)
}

/// What the entry of a search for one fault answered.
fn searched(circuit: &[u8], returned: u32, area: [u8; 32]) -> Result<Search, Refusal> {
    let [number, nodes, ..] = answered_of(circuit, returned, area)?;
    Ok(Search { outcome: Outcome::numbered(number), nodes })
}

/// The test search that decides at head lines, the free lines next to those which can be reached from a branch, as [`search`] decides at inputs:
/// so it needs few nodes where wide trees lie before few head lines. It serves faults at bound lines and at their pins, and head lines that are
/// stuck; for any other fault it is [`search`]. The test buffer, one byte for each input, is written only for a test, and where it decides
/// at head lines the trees are set for it. The work memory, two bytes for each line, then holds the good and the faulty values of the last node,
/// in which, where it decides at head lines, all other free lines are X; with budget 0 it stays. A refusal writes nothing.
///
/// Lines 0 and 1 are inputs, line 2 is their AND. It is a head line, since line 3, an XOR, reads it twice:
///
/// ```
/// use ullimaqsu::{search_heads, Outcome};
/// let tree = [0, 0, 0, 0, 0, 0, 0, 0, 0, 0, 0, 0, 0, 0, 0, 0, 3, 1, 0, 0, 1, 0, 0, 0, 7, 1, 2, 0, 2, 0, 0, 0];
/// let head_stuck_at_1 = [2, 0, 0, 1, 0, 0, 0, 0];
/// let (mut test, mut work) = ([9; 2], [9; 8]);
/// let found = search_heads(&tree, &head_stuck_at_1, u64::MAX, &mut test, &mut work)?;
/// assert_eq!((found.outcome, found.nodes, test), (Outcome::Test, 2, [0, 2]));
/// assert_eq!(work, [2, 2, 0, 0, 2, 2, 1, 0]);
/// # Ok::<(), ullimaqsu::Refusal>(())
/// ```
pub fn search_heads(circuit: &[u8], fault: &[u8], budget: u64, test: &mut [u8], work: &mut [u8]) -> Result<Search, Refusal> {
    let mut area = [0; 32];
    let returned = enter(Call::SearchHeads { circuit, fault, budget, test, work, answer: &mut area });
    searched(circuit, returned, area)
}

/// The test search for a list of faults with a budget for each: in one call what [`search`] does for one fault after the other, with the
/// same work memory. The tests stand in the order of the faults, one byte for each input; where none was found, nothing is written. A
/// refusal writes nothing.
///
/// ```
/// use ullimaqsu::{search_all, Outcome, Search};
/// let not = [0, 0, 0, 0, 0, 0, 0, 0, 2, 1, 0, 0, 0, 0, 0, 0];
/// let output_stuck_at_0_and_at_1 = [1, 0, 0, 0, 0, 0, 0, 0, 1, 0, 0, 1, 0, 0, 0, 0];
/// let (mut tests, mut work) = ([9; 2], [9; 4]);
/// let found = search_all(&not, &output_stuck_at_0_and_at_1, &[u64::MAX, 2], &mut tests, &mut work)?;
/// assert_eq!(found, [Search { outcome: Outcome::Test, nodes: 2 }, Search { outcome: Outcome::GivenUp, nodes: 2 }]);
/// assert_eq!(tests, [0, 9]);
/// # Ok::<(), ullimaqsu::Refusal>(())
/// ```
pub fn search_all(circuit: &[u8], faults: &[u8], budgets: &[u64], tests: &mut [u8], work: &mut [u8]) -> Result<Vec<Search>, Refusal> {
    let mut area = [0; 32];
    // as many results as budgets: where these are not as many as faults, the call is refused
    let (outcomes, counts) = (&mut vec![0; budgets.len()], &mut vec![0; budgets.len()]);
    let returned = enter(Call::SearchAll { circuit, faults, budgets, outcomes, counts, tests, work, answer: &mut area });
    answered_of(circuit, returned, area)?;
    let found = |(&number, &nodes): (&u8, &u64)| Search { outcome: Outcome::numbered(number.into()), nodes };
    Ok(outcomes.iter().zip(&*counts).map(found).collect())
}

/// The clause writer for one fault: clauses that can be satisfied exactly if the fault has a test, each closed by a 0, for a SAT solver. Words
/// after the last clause stay. Refusal 11 says how many words are needed. A refusal writes nothing.
///
/// ```
/// let not = [0, 0, 0, 0, 0, 0, 0, 0, 2, 1, 0, 0, 0, 0, 0, 0];
/// let output_stuck_at_0 = [1, 0, 0, 0, 0, 0, 0, 0];
/// let refusal = ullimaqsu::clauses(&not, &output_stuck_at_0, &mut []).unwrap_err();
/// assert_eq!(refusal.to_string(), "refusal 11: the clauses do not fit the lent words (words needed: 38)");
/// let mut words = vec![0; refusal.place as usize];
/// let written = ullimaqsu::clauses(&not, &output_stuck_at_0, &mut words)?;
/// assert_eq!((written.words, written.clauses, written.variables), (38, 12, 6));
/// assert_eq!(words[..6], [-3, -1, 0, 3, 1, 0]);
/// # Ok::<(), ullimaqsu::Refusal>(())
/// ```
pub fn clauses(circuit: &[u8], fault: &[u8], words: &mut [i32]) -> Result<Clauses, Refusal> {
    let mut area = [0; 32];
    let returned = enter(Call::Clauses { circuit, fault, words, answer: &mut area });
    let [words, clauses, variables, _] = answered_of(circuit, returned, area)?;
    Ok(Clauses { words, clauses, variables })
}

/// The size of the buffer that [`bench`] is lent: room for the largest circuit.
pub const LARGEST_CIRCUIT: usize = 16_384;

/// The bench reader: writes the circuit of a text in the bench notation, the inputs as they appear and then always the earliest gate in the
/// text whose sources are placed, and gives the number of its records. What follows them in the buffer stays. A refusal writes nothing.
///
/// ```
/// use ullimaqsu::{bench, LARGEST_CIRCUIT};
/// let mut circuit = [9; LARGEST_CIRCUIT];
/// assert_eq!(bench(b"OUTPUT(y)\ny = NOT(a)\nINPUT(a)", &mut circuit), Ok(2));
/// assert_eq!(circuit[..18], [0, 0, 0, 0, 0, 0, 0, 0, 2, 1, 0, 0, 0, 0, 0, 0, 9, 9]);
/// let refusal = bench(b"OUTPUT(y)\ny = NOT(b)\nINPUT(a)", &mut circuit).unwrap_err();
/// assert_eq!(refusal.to_string(), "refusal 15: a name is used and defined nowhere, or defined a second time (byte 18)");
/// ```
pub fn bench(text: &[u8], circuit: &mut [u8]) -> Result<u64, Refusal> {
    let mut area = [0; 32];
    let returned = enter(Call::Bench { text, circuit, answer: &mut area });
    answered(returned, area).map(|[records, ..]| records)
}

/// The most lines that a circuit has, and the number of places that [`bench_names`] is lent.
pub const MOST_LINES: usize = 2_048;

/// The names of a text's lines: writes a place for each line of the circuit that [`bench`] writes of the text, the first byte of the line's
/// name where the text defines it, and gives the number of lines. The name is the letters, digits and underscores from there on. What follows
/// the last line's place stays. The refusals are those of [`bench`], and a refusal writes nothing.
///
/// ```
/// use ullimaqsu::{bench_names, MOST_LINES};
/// let mut places = [9; MOST_LINES];
/// assert_eq!(bench_names(b"OUTPUT(y)\ny = NOT(a)\nINPUT(a)", &mut places), Ok(2));
/// assert_eq!(places[..4], [27, 10, 9, 9]);
/// let refusal = bench_names(b"OUTPUT(y)\ny = NOT(b)\nINPUT(a)", &mut places).unwrap_err();
/// assert_eq!(refusal.to_string(), "refusal 15: a name is used and defined nowhere, or defined a second time (byte 18)");
/// ```
pub fn bench_names(text: &[u8], places: &mut [u32]) -> Result<u64, Refusal> {
    let mut area = [0; 32];
    let returned = enter(Call::BenchNames { text, places, answer: &mut area });
    answered(returned, area).map(|[records, ..]| records)
}

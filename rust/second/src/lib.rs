//! The second program: document 01 and the requests of document 02 done once more, from their words alone, to be compared with the library
//! byte by byte.
//!
//! It goes its own way. Records are read into values that cannot be wrong, so that what is refused is what cannot be read; nothing is
//! lent and nothing is written over; definitions are run as they stand. It depends on nothing and is in no hurry.

pub mod audit;
pub mod bench;
pub mod circuit;
pub mod clauses;
pub mod clocked;
pub mod compact;
pub mod control;
pub mod dictionary;
pub mod dictionary_lanes;
pub mod entries;
pub mod fault;
pub mod pattern;
pub mod program;
pub mod refusal;
pub mod search;
pub mod search_all;
pub mod search_heads;
pub mod slice;
pub mod suspects;
pub mod unfold;
pub mod unfold_dictionary;
pub mod values;

pub use audit::{audit, Finding};
pub use bench::{bench, bench_names};
pub use circuit::{check, Circuit, Counts};
pub use clauses::{clauses, Written};
pub use clocked::Clocked;
pub use compact::compact;
pub use control::{control, Halvings};
pub use dictionary::{dictionary, Dictionary, Entry, Given};
pub use dictionary_lanes::dictionary_lanes;
pub use fault::{Fault, Site};
pub use pattern::Pattern;
pub use program::{program, Files};
pub use refusal::Refusal;
pub use search::{search, Look, Outcome, Search, Searched};
pub use search_all::search_all;
pub use search_heads::search_heads;
pub use slice::Slice;
pub use suspects::Suspects;
pub use unfold::unfold;
pub use unfold_dictionary::unfold_dictionary;
pub use values::Value;

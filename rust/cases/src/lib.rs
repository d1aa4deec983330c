//! What the tests draw their cases from: random numbers, circuits and texts of every kind, damage, lent memory between guards, counts of what
//! was seen, directories to run commands in, and what these say. Everything is bytes: nothing here knows the library or the second program.

pub mod blif;
pub mod circuits;
pub mod clocked;
pub mod control;
pub mod damage;
pub mod directory;
pub mod faults;
pub mod files;
mod lanes;
mod lent;
pub mod marked;
pub mod placed;
mod random;
pub mod said;
pub mod selects;
pub mod suspects;
pub mod tables;
mod tally;
pub mod texts;
pub mod trees;

pub use directory::Directory;
pub use files::Files;
pub use lanes::lane;
pub use lent::Lent;
pub use random::{drawn, Random};
pub use tally::{Sort, Tally};

//! The proved parts beside the same algorithms in safe Rust, both compiled for this machine, in one run. `.ci/benchmark` builds and runs it.
//!
//! Each time is the best of many rounds, in which all take turns. A ratio is to the first column: above 1 it says that the proved code is
//! faster. Buffers are not cleared between rounds: every round writes the same bytes over the last. The Rust branches over the kinds of gates;
//! at the largest sizes dictionary and searches are also timed beside Rust that looks gates up in a table (`baseline/gates.rs`). Some rows have
//! proved code in place of Rust: single calls of the search, whose ratio says what a list in one call brings, and the compactor beside the audit
//! of its list, whose ratio is at least 0.5 where the audit takes at most twice the compactor's time; and the search over patterns beside that over
//! head lines where there are no trees, whose ratio says what it costs to look for them.
//!
//! The dictionary that carries 64 patterns at once has tables of its own, and so has that of several clock steps, which carries as many. It runs
//! beside the same in Rust, whose gates choose or branch (`baseline/lanes/gates.rs`): branches are faster where the processor learns the
//! circuit's kinds, choices where it does not. And it runs beside dictionaries that simulate a byte at a time, in Rust and proved; over several
//! clock steps the proved one has the unfolded circuit, with each fault in step 1 alone. The last table is of Rust alone: what it costs that the
//! entries of a fault, which come out of one word, stand a row apart.

mod baseline;
mod clocked;
mod large;
mod parts;
mod small;
mod timing;

use parts::{BESIDE_LANES, ORDERS};
use timing::{print, MICROSECONDS, NANOSECONDS};

fn main() {
    println!("{}; buffers not cleared between rounds", timing::machine());
    print("the largest sizes", MICROSECONDS, ["proved", "Rust"], large::rows());
    print("small calls", NANOSECONDS, ["proved", "Rust"], small::rows());
    print("search_heads: all faults, 100 nodes each", MICROSECONDS, ["proved", "Rust"], small::heads());
    print("the same beside the proved search", MICROSECONDS, ["heads", "inputs"], small::heads_beside_search());
    print("unfold", NANOSECONDS, ["proved", "Rust"], clocked::unfoldings());
    print("64 patterns at once", MICROSECONDS, BESIDE_LANES, large::lanes());
    print("64 patterns at once, small calls", NANOSECONDS, BESIDE_LANES, small::lanes());
    print("64 patterns at once, several clock steps", MICROSECONDS, BESIDE_LANES, clocked::dictionaries());
    print("the order of their entries, in Rust", MICROSECONDS, ORDERS, large::orders());
}

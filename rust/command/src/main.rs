//! `ullimaqsu`: the proved test tools as commands, by the names of a circuit's text.
//!
//! A command reads its files, calls the library and prints. What the library answers is proved; this program is tested. Made here, besides words,
//! tables and pictures of the library's answers, are the choice of `faults --collapse`, the texts of `narrow`, the inputs and state records for the
//! flip-flops of a text, the head lines that `check` and `search` speak of, the order of the rows of `control`, the numbers of detected faults, the
//! pattern that `audit` names for a lost fault or pair, and the one that `suspects` says to try.
mod bar;
mod chance;
mod circuit;
mod clocked;
mod collapse;
mod columns;
mod commands;
mod drawing;
mod edit;
mod entry;
mod explain;
mod fault;
mod files;
mod filled;
mod form;
mod heads;
mod help;
mod kind;
mod levels;
mod listed;
mod lists;
mod marks;
mod narrow;
mod nearest;
mod notation;
mod out;
mod pattern;
mod problem;
mod replace;
mod simulation;
mod table;
mod unfolded;
mod value;
mod words;

use out::Out;
use std::env;
use std::process::ExitCode;

fn main() -> ExitCode {
    let mut out = Out::new();
    let words = env::args_os().skip(1).collect();
    let done = commands::run(words, &mut out).and_then(|()| out.flush());
    match done {
        Ok(()) => ExitCode::SUCCESS,
        Err(problem) => {
            // what was printed before stands before what is said of it
            let _ = out.flush();
            problem.tell();
            problem.code()
        }
    }
}

//! What a command says.
use std::process::{Command, Output};

/// How a command ended, what it printed and what it said on standard error.
pub type Said = (Option<i32>, String, String);

pub fn said(output: Output) -> Said {
    let text = |bytes| String::from_utf8(bytes).expect("text");
    (output.status.code(), text(output.stdout), text(output.stderr))
}

pub fn run(command: &mut Command) -> Said {
    said(command.output().expect("it starts"))
}

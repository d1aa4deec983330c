//! Built programs.
use std::process::Command;

/// An x86-64 program of the repository, on any machine.
pub fn program(path: &str) -> Command {
    let root = concat!(env!("CARGO_MANIFEST_DIR"), "/..");
    let mut command = Command::new("sh");
    command.args([format!("{root}/.ci/x86"), format!("{root}/{path}")]);
    command
}

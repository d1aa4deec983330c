//! Pipes that make a command wait.
use std::io::{pipe, PipeReader, PipeWriter, Write};

/// Both ends of a pipe that takes nothing more until it is read.
pub fn full_pipe() -> (PipeReader, PipeWriter) {
    let (reads, mut writes) = pipe().expect("a pipe");
    // Linux gives a pipe this many bytes
    writes.write_all(&[b' '; 1 << 16]).expect("room");
    (reads, writes)
}

//! Standard output, where every write may fail.
use crate::files::why;
use crate::problem::Problem;
use std::io::{self, BufWriter, ErrorKind, StdoutLock, Write};

pub struct Out(BufWriter<StdoutLock<'static>>);

impl Out {
    pub fn new() -> Out {
        Out(BufWriter::new(io::stdout().lock()))
    }

    pub fn print(&mut self, text: &str) -> Result<(), Problem> {
        self.print_bytes(text.as_bytes())
    }

    /// What need not be text.
    pub fn print_bytes(&mut self, bytes: &[u8]) -> Result<(), Problem> {
        self.0.write_all(bytes).map_err(unwritten)
    }

    pub fn flush(&mut self) -> Result<(), Problem> {
        self.0.flush().map_err(unwritten)
    }
}

fn unwritten(error: io::Error) -> Problem {
    match error.kind() {
        ErrorKind::BrokenPipe => Problem::Unheard,
        _ => Problem::Stopped(format!("standard output could not be written: {}", why(&error))),
    }
}

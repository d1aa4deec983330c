//! How far a long command is: a line on standard error, where that is a terminal.
use std::io::{self, IsTerminal, Write};

const WIDTH: usize = 40;

pub struct Bar {
    total: usize,
    seen: bool,
}

impl Bar {
    /// Of so many faults.
    pub fn new(total: usize) -> Bar {
        Bar { total, seen: io::stderr().is_terminal() }
    }

    /// So many are done. It takes the line where the terminal stands: what was printed before has ended its own.
    pub fn show(&self, done: usize) {
        self.put(&drawn(done, self.total));
    }

    /// Leaves the line empty for what is printed there, which may be the same terminal.
    pub fn erase(&self) {
        self.put("");
    }

    /// In place of what the line had. That it can't be written loses nothing.
    fn put(&self, text: &str) {
        if self.seen {
            let _ = write!(io::stderr(), "\r\x1b[K{text}");
        }
    }
}

fn drawn(done: usize, total: usize) -> String {
    let filled = WIDTH * done / total.max(1);
    format!("[{}{}] {done} of {total} faults", "#".repeat(filled), ".".repeat(WIDTH - filled))
}

#[cfg(test)]
mod tests {
    use super::drawn;

    #[test]
    fn as_full_as_done() {
        assert_eq!(drawn(0, 3), format!("[{}] 0 of 3 faults", ".".repeat(40)));
        assert_eq!(drawn(1, 3), format!("[{}{}] 1 of 3 faults", "#".repeat(13), ".".repeat(27)));
        assert_eq!(drawn(3, 3), format!("[{}] 3 of 3 faults", "#".repeat(40)));
    }
}

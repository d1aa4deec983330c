//! Calls over the bridge, `build/serve`, an x86-64 program under the kit's emulator. Each thread has a bridge of its own, which ends with
//! the thread.
mod batch;
mod parameter;
#[cfg(test)]
mod tests;

use crate::raw::Call;
use batch::Batch;
pub use parameter::Parameter;
use std::cell::RefCell;
use std::io::{self, Read, Write};
use std::process::{Child, ChildStdin, ChildStdout, Command, Stdio};

/// A batch is sent once it has this many bytes.
const ENOUGH: usize = 1 << 20;

/// An entry by its name, and its parameters in order.
pub type Named<'a> = (&'static str, Vec<&'a mut dyn Parameter>);

struct Bridge {
    process: Child,
    to: Option<ChildStdin>,
    from: ChildStdout,
}

impl Bridge {
    fn start() -> Bridge {
        let root = concat!(env!("CARGO_MANIFEST_DIR"), "/..");
        let mut process = Command::new("sh")
            .args([format!("{root}/.ci/x86"), format!("{root}/build/serve")])
            .stdin(Stdio::piped())
            .stdout(Stdio::piped())
            .spawn()
            .expect("the bridge starts");
        let (to, from) = (process.stdin.take(), process.stdout.take().expect("piped"));
        Bridge { process, to, from }
    }

    /// Sends a batch, and takes it back as the calls left it.
    fn exchange(&mut self, batch: &mut Batch) -> io::Result<()> {
        let to = self.to.as_mut().expect("open until the end");
        to.write_all(&(batch.bytes.len() as u64).to_le_bytes())?;
        to.write_all(&batch.bytes)?;
        self.from.read_exact(&mut batch.bytes)
    }

    fn run(&mut self, mut calls: &mut [Named]) -> io::Result<Vec<u32>> {
        let mut returned = Vec::with_capacity(calls.len());
        while !calls.is_empty() {
            let mut batch = Batch::default();
            let mut count = 0;
            while count < calls.len() && batch.bytes.len() < ENOUGH {
                batch.put_call(&calls[count]);
                count += 1;
            }
            self.exchange(&mut batch)?;
            let (sent, rest) = calls.split_at_mut(count);
            returned.extend(sent.iter_mut().map(|call| batch.take_call(call)));
            calls = rest;
        }
        Ok(returned)
    }
}

impl Drop for Bridge {
    fn drop(&mut self) {
        self.to = None; // the bridge ends with its input
        let _ = self.process.wait();
    }
}

thread_local! {
    static BRIDGE: RefCell<Bridge> = RefCell::new(Bridge::start());
}

pub fn enter(call: &mut Call) -> u32 {
    enter_all(std::slice::from_mut(call))[0]
}

pub fn enter_all(calls: &mut [Call]) -> Vec<u32> {
    let mut named: Vec<_> = calls.iter_mut().map(Call::named).collect();
    BRIDGE.with(|bridge| bridge.borrow_mut().run(&mut named)).expect("the bridge answers, if .ci/link has built it")
}

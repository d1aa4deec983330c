//! Calls as the bytes that go to the bridge and come back; `c/serve.c` says how they are written.
use super::Named;

/// What stands before and behind each slice in the bridge's memory.
const GUARD: [u8; 16] = *b"<guard 6f2a9c4e>";

/// The calls of one exchange as bytes, written in order or read back in the same order.
#[derive(Default)]
pub struct Batch {
    pub bytes: Vec<u8>,
    at: usize,
}

impl Batch {
    pub fn put_call(&mut self, (entry, parameters): &Named) {
        self.put_number(0); // for what will be returned
        self.put_name(entry);
        self.put_number(parameters.len() as u64);
        parameters.iter().for_each(|parameter| parameter.put(self));
    }

    pub fn put_number(&mut self, number: u64) {
        self.bytes.extend(number.to_le_bytes());
    }

    pub fn put_name(&mut self, name: &str) {
        self.put_number(name.len() as u64);
        self.bytes.extend(name.bytes());
    }

    /// A slice of so many elements of a type, which are these bytes.
    pub fn put_slice(&mut self, of: &str, len: usize, bytes: &[u8]) {
        self.put_name(of);
        self.put_number(len as u64);
        self.bytes.extend(GUARD);
        self.bytes.extend(bytes);
        self.bytes.extend(GUARD);
    }

    /// Puts what a call left in lent memory where it belongs, and gives what the entry returned.
    pub fn take_call(&mut self, (entry, parameters): &mut Named) -> u32 {
        let returned = self.take_number();
        self.take_same_name(entry);
        assert_eq!(self.take_number(), parameters.len() as u64, "the bridge keeps parameters");
        parameters.iter_mut().for_each(|parameter| parameter.take(self));
        returned.try_into().expect("an entry returns 32 bits")
    }

    fn take(&mut self, len: usize) -> &[u8] {
        let from = self.at;
        self.at += len;
        &self.bytes[from..self.at]
    }

    pub fn take_number(&mut self) -> u64 {
        u64::from_le_bytes(self.take(8).try_into().expect("eight bytes"))
    }

    pub fn take_same_name(&mut self, name: &str) {
        let len = self.take_number();
        assert_eq!((len, self.take(name.len())), (name.len() as u64, name.as_bytes()), "the bridge keeps names");
    }

    /// The bytes of a slice of so many elements and bytes.
    pub fn take_slice(&mut self, of: &str, len: usize, size: usize) -> &[u8] {
        self.take_same_name(of);
        assert_eq!(self.take_number(), len as u64, "the bridge keeps lengths");
        between_guards(self.take(size + 2 * GUARD.len())).expect("nothing is written before or behind a slice")
    }
}

/// What stands in memory, if its guards stand.
fn between_guards(memory: &[u8]) -> Option<&[u8]> {
    memory.strip_prefix(&GUARD)?.strip_suffix(&GUARD)
}

#[cfg(test)]
mod tests {
    use super::*;

    #[test]
    fn guards_see_what_is_written_outside() {
        let memory = [&GUARD[..], b"abc", &GUARD].concat();
        assert_eq!(between_guards(&memory), Some(&b"abc"[..]));
        for place in 0..memory.len() {
            let mut memory = memory.clone();
            memory[place] ^= 1;
            let inside = (GUARD.len()..GUARD.len() + 3).contains(&place);
            assert_eq!(between_guards(&memory).is_some(), inside, "place {place}");
        }
    }
}

//! Bytes lent from the middle of a larger buffer, so that a write beside them shows.

/// The guard bytes on each side, at least.
const GUARD: usize = 48;

/// A lent part of a buffer, with what it held when it was lent.
#[derive(Debug, Clone)]
pub struct Lent {
    buffer: Vec<u8>,
    start: usize,
    before: Vec<u8>,
}

impl Lent {
    /// Lends a copy of `content`. Its place in memory is even or odd with its length.
    pub fn new(content: &[u8]) -> Self {
        let start = GUARD + content.len() % 16;
        let mut buffer: Vec<u8> = (0..start + content.len() + GUARD).map(guard_byte).collect();
        buffer[start..start + content.len()].copy_from_slice(content);
        Self {
            buffer,
            start,
            before: content.to_vec(),
        }
    }

    /// Where the lent part begins; a callee may reach the whole buffer through it.
    pub fn pointer(&mut self) -> *mut u8 {
        self.buffer.as_mut_ptr().wrapping_add(self.start)
    }

    pub fn length(&self) -> u64 {
        self.before.len() as u64
    }

    /// What the lent part holds now.
    pub fn content(&self) -> &[u8] {
        &self.buffer[self.start..self.start + self.before.len()]
    }

    /// Whether no byte beside the lent part changed.
    pub fn guards_hold(&self) -> bool {
        let end = self.start + self.before.len();
        let holds = |at: usize| self.buffer[at] == guard_byte(at);
        (0..self.start).chain(end..self.buffer.len()).all(holds)
    }

    /// Whether no byte at all changed.
    pub fn is_as_it_was(&self) -> bool {
        self.guards_hold() && self.content() == self.before
    }
}

fn guard_byte(at: usize) -> u8 {
    (at as u8).wrapping_mul(29) ^ 0xA5
}

#[cfg(test)]
mod tests {
    use super::*;

    #[test]
    fn a_write_inside_or_beside_the_lent_part_shows() {
        let mut lent = Lent::new(b"content");
        assert!(lent.is_as_it_was());
        let start = lent.start;
        lent.buffer[start] ^= 1;
        assert!(lent.guards_hold() && !lent.is_as_it_was());
        for at in [start - 1, start + 7] {
            let mut beside = Lent::new(b"content");
            beside.buffer[at] ^= 1;
            assert!(!beside.guards_hold());
        }
    }
}

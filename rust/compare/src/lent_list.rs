//! Lines lent from the middle of a longer list, so that a write beside them shows.

use crate::answers::Line;

/// The guard lines on each side.
const GUARD: usize = 4;

/// A lent part of a list, with what it held when it was lent.
#[derive(Debug, Clone)]
pub struct LentList {
    /// The lines as numbers, two for each: a line need not begin at a multiple of its size.
    numbers: Vec<u64>,
    start: usize,
    before: Vec<Line>,
}

impl LentList {
    /// Lends a copy of these lines. They begin at a multiple of 16 bytes or 8 beyond one, by their number.
    pub fn new(lines: &[Line]) -> Self {
        let start = 2 * GUARD + lines.len() % 2;
        let end = start + 2 * lines.len();
        let mut numbers: Vec<u64> = (0..end + 2 * GUARD).map(guard_number).collect();
        for (to, line) in numbers[start..end].chunks_exact_mut(2).zip(lines) {
            to.copy_from_slice(&[line.place, line.length]);
        }
        Self {
            numbers,
            start,
            before: lines.to_vec(),
        }
    }

    /// No lines, and no place in memory either.
    pub fn nowhere() -> Self {
        Self {
            numbers: Vec::new(),
            start: 0,
            before: Vec::new(),
        }
    }

    /// Where the lent lines begin; a callee may reach the whole list through it.
    pub fn pointer(&mut self) -> *mut Line {
        if self.numbers.is_empty() {
            return std::ptr::null_mut();
        }
        self.numbers.as_mut_ptr().wrapping_add(self.start).cast()
    }

    pub fn length(&self) -> u64 {
        self.before.len() as u64
    }

    /// What the lent lines are now.
    pub fn content(&self) -> Vec<Line> {
        let lines = self.numbers[self.start..self.end()].chunks_exact(2);
        lines
            .map(|line| Line {
                place: line[0],
                length: line[1],
            })
            .collect()
    }

    /// What the lent lines were.
    pub fn before(&self) -> &[Line] {
        &self.before
    }

    /// Whether nothing beside the lent lines changed.
    pub fn guards_hold(&self) -> bool {
        let holds = |at: usize| self.numbers[at] == guard_number(at);
        (0..self.start)
            .chain(self.end()..self.numbers.len())
            .all(holds)
    }

    /// Whether nothing at all changed.
    pub fn is_as_it_was(&self) -> bool {
        self.guards_hold() && self.content() == self.before
    }

    fn end(&self) -> usize {
        self.start + 2 * self.before.len()
    }
}

fn guard_number(at: usize) -> u64 {
    (at as u64 + 1).wrapping_mul(0x9E37_79B9_7F4A_7C15)
}

#[cfg(test)]
mod tests {
    use super::*;

    const LINES: [Line; 2] = [
        Line {
            place: 227,
            length: 20,
        },
        Line {
            place: 247,
            length: 0,
        },
    ];

    #[test]
    fn lines_are_lent_as_they_are_from_places_of_both_kinds() {
        for count in 0..=2 {
            let mut lent = LentList::new(&LINES[..count]);
            assert_eq!(
                (lent.length(), lent.before()),
                (count as u64, &LINES[..count])
            );
            assert_eq!(lent.content(), LINES[..count]);
            let first = lent.numbers.as_ptr().addr();
            assert_eq!((lent.pointer().addr() - first) % 16, 8 * (count % 2));
        }
        assert!(LentList::nowhere().pointer().is_null());
        assert_eq!(LentList::nowhere().length(), 0);
    }

    #[test]
    fn a_write_inside_or_beside_the_lent_lines_shows() {
        let mut lent = LentList::new(&LINES);
        assert!(lent.is_as_it_was());
        let (start, end) = (lent.start, lent.end());
        lent.numbers[end - 1] ^= 1;
        assert!(lent.guards_hold() && !lent.is_as_it_was());
        for at in [0, start - 1, end, lent.numbers.len() - 1] {
            let mut beside = LentList::new(&LINES);
            beside.numbers[at] ^= 1;
            assert!(!beside.guards_hold());
        }
    }
}

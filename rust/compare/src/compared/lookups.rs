//! GeoKeys looked up by both sides, plainly and by halving, and what both lookups have in common in any directory.

use super::{Compared, Function};
use crate::answers::{GeoKey, GeoKeyRead};
use crate::lent::Lent;
use crate::{ours, plain};

/// The most entries that halving reads: a record has room for 8,190, which is below 2^13.
const MOST_READS: u64 = 13;

impl Compared {
    /// Looks a key up in both ways; gives the plain answer.
    pub fn geokey_find(&mut self, file: &[u8], key: u16) -> GeoKey {
        self.geokey_lookups(file, key).0
    }

    /// Looks a key up in both ways; gives the answer by halving.
    pub fn geokey_halve(&mut self, file: &[u8], key: u16) -> GeoKeyRead {
        self.geokey_lookups(file, key).1
    }

    /// Looks a key up plainly and by halving.
    pub fn geokey_lookups(&mut self, file: &[u8], key: u16) -> (GeoKey, GeoKeyRead) {
        let mut lent = Lent::new(file);
        let found = ours::geokey_find(&mut lent, key);
        let other = plain::geokey_find(file, key);
        self.agree(Function::GeoKeyFind, found.number, found, other);
        self.untouched(&[&lent]);
        let halved = ours::geokey_halve(&mut lent, key);
        let other = plain::geokey_halve(file, key);
        self.agree(Function::GeoKeyHalve, halved.number, halved, other);
        self.untouched(&[&lent]);
        let case = &self.case;
        assert!(
            go_together(&found, &halved),
            "{found:?} and {halved:?} on {case}"
        );
        (found, halved)
    }
}

/// Whether these may be the answers of both lookups, in a directory of any order: halving may miss a key that is there,
/// or come to another entry with it, but finds none that is not there.
fn go_together(found: &GeoKey, halved: &GeoKeyRead) -> bool {
    let reads = match halved.number {
        0 | 43..=46 => 1..=MOST_READS,
        42 => 0..=MOST_READS,
        _ => 0..=0,
    };
    let numbers = match found.number {
        0 | 43..=46 => matches!(halved.number, 0 | 42..=46),
        number => halved.number == number,
    };
    reads.contains(&halved.reads) && numbers
}

#[cfg(test)]
mod tests {
    use super::*;

    fn together(found: u64, halved: u64, reads: u64) -> bool {
        let found = GeoKey {
            number: found,
            ..GeoKey::default()
        };
        let halved = GeoKeyRead {
            number: halved,
            reads,
            ..GeoKeyRead::default()
        };
        go_together(&found, &halved)
    }

    #[test]
    fn a_key_that_is_there_may_be_missed_and_one_that_is_not_is_never_found() {
        for number in [0, 43, 44, 45, 46] {
            assert!(together(number, 42, 2) && together(number, 0, 2));
            assert!(!together(42, number, 2));
            assert!(!together(number, 40, 0) && !together(number, 41, 0));
        }
        assert!(together(42, 42, 2));
        assert!(!together(40, 41, 0) && !together(41, 42, 0) && !together(9, 10, 0));
    }

    #[test]
    fn reads_are_at_most_13_and_stand_beside_what_was_found_and_42_to_46() {
        for number in [0, 43, 44, 45, 46] {
            assert!(together(number, number, 1) && together(number, number, 13));
            assert!(!together(number, number, 0) && !together(number, number, 14));
        }
        assert!(together(42, 42, 0) && together(42, 42, 13) && !together(42, 42, 14));
        for number in [1, 10, 40, 41] {
            assert!(together(number, number, 0) && !together(number, number, 1));
        }
    }
}

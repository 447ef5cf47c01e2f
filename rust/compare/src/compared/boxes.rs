//! Which points the boxes of a sheet kept and dropped, in the calls that go by kept points.

use std::collections::BTreeSet;

use super::{Compared, Function};
use crate::damage::{POINT_COUNT, POINT_OFFSET, RECORD_LENGTH};
use crate::spec::{ByBoxes, SheetSpec};

impl Compared {
    /// Fails if no point was kept in a box, or none was dropped for being in no box alone, by one of the functions.
    pub fn assert_boxes_decided(&self, functions: &[Function]) {
        for function in functions {
            let decided = self.decided.get(function).cloned().unwrap_or_default();
            let both = BTreeSet::from([ByBoxes::Kept, ByBoxes::Dropped]);
            assert_eq!(decided, both, "what boxes decided for {function:?}");
        }
    }

    /// Remembers what the boxes of the sheet decided where a function has accepted it and the file.
    pub(super) fn remember_boxes(&mut self, function: Function, file: &[u8], sheet: &[u8]) {
        let sheet = SheetSpec::of_passing(sheet);
        if sheet.has_boxes() {
            let decided = points(file).filter_map(|point| sheet.by_boxes(point));
            self.decided.entry(function).or_default().extend(decided);
        }
    }
}

/// The points of a file that passes.
fn points(file: &[u8]) -> impl Iterator<Item = &[u8]> {
    let [offset, length, count] =
        [POINT_OFFSET, RECORD_LENGTH, POINT_COUNT].map(|field| field.get(file) as usize);
    file[offset..].chunks_exact(length).take(count)
}

#[cfg(test)]
mod tests {
    use std::panic::{AssertUnwindSafe, catch_unwind};

    use super::*;
    use crate::spec::{BoxSpec, FileSpec, LineSpec};

    const ONE: [Function; 1] = [Function::Release];

    /// Whether boxes decided both ways, once points of these bytes were there under a sheet of class 2 and a box of 2s.
    fn decided(points: &[u8]) -> bool {
        let file = FileSpec {
            points: points.iter().map(|&byte| point(byte)).collect(),
            trailing: point(2),
            ..FileSpec::bare(0)
        };
        let boxed = LineSpec::Box(BoxSpec::of_one([0x0202_0202; 3]));
        let sheet = SheetSpec::new([LineSpec::Classes(2, 2), boxed]);
        let mut compared = Compared::new();
        compared.remember_boxes(ONE[0], &file.bytes(), &sheet.bytes());
        catch_unwind(AssertUnwindSafe(|| compared.assert_boxes_decided(&ONE))).is_ok()
    }

    /// A point of class 2, but for one of 3s, whose other bytes are all the same.
    fn point(byte: u8) -> Vec<u8> {
        let mut point = vec![byte; 20];
        point[15] = byte.max(2);
        point
    }

    #[test]
    fn both_a_kept_and_a_dropped_point_are_asked_for() {
        assert!(decided(&[2, 1]));
        assert!(decided(&[1, 3, 2]));
        for one_sided in [&[][..], &[2], &[1], &[3], &[2, 3], &[1, 3]] {
            assert!(!decided(one_sided), "{one_sided:?}");
        }
    }
}

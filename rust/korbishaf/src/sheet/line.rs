//! Lines of a sheet.

use super::bounds;
use super::user_id::{LongUserId, UserId};
use std::fmt;
use std::iter::FusedIterator;

/// The two bytes that every line begins with.
pub(super) const MARK: &[u8; 2] = b"KS";

/// A line of a keep sheet: what it keeps.
///
/// It shows itself as a sheet's text has it.
///
/// ```
/// use korbishaf::Line;
///
/// assert_eq!(Line::class(2).to_string(), "class 2");
/// assert_eq!(Line::classes(3, 5).to_string(), "class 3-5");
/// assert_eq!(Line::record("LASF_Projection", 34735)?.to_string(), "record LASF_Projection 34735");
/// let anywhere_in_z = Line::bounding_box([-50, 0, i32::MIN], [900, 40, i32::MAX]);
/// assert_eq!(anywhere_in_z.to_string(), "box X -50..900 Y 0..40");
/// # Ok::<(), korbishaf::LongUserId>(())
/// ```
#[derive(Clone, Copy, Debug, PartialEq, Eq, Hash)]
#[non_exhaustive]
pub enum Line {
    /// Points whose class is from the lowest to the highest, both included, with any
    /// [flags](crate#classes-and-flags) but withheld. Where the sheet has [boxes](crate#boxes), these points have to
    /// lie in one of them.
    Classes {
        /// The lowest class.
        lowest: u8,
        /// The highest class.
        highest: u8,
    },
    /// Variable length records of a user ID and a record ID.
    Record {
        /// The user ID.
        user_id: UserId,
        /// The record ID.
        record_id: u16,
    },
    /// A [box](crate#boxes) in stored values: where a sheet has such lines, a point goes out only if it lies in one of
    /// them, edges included. By itself it keeps no point, since no class is kept by it.
    Box {
        /// The lowest stored X, Y and Z.
        low: [i32; 3],
        /// The highest stored X, Y and Z.
        high: [i32; 3],
    },
}

impl Line {
    /// The line that keeps the points of one class.
    #[must_use]
    pub fn class(class: u8) -> Self {
        Line::classes(class, class)
    }

    /// The line that keeps the points with a class from the lowest to the highest.
    #[must_use]
    pub fn classes(lowest: u8, highest: u8) -> Self {
        Line::Classes { lowest, highest }
    }

    /// The line that keeps the variable length records of a user ID and a record ID.
    ///
    /// # Errors
    ///
    /// Where more than 16 bytes of the user ID count.
    pub fn record(user_id: impl AsRef<[u8]>, record_id: u16) -> Result<Self, LongUserId> {
        let user_id = UserId::new(user_id)?;
        Ok(Line::Record { user_id, record_id })
    }

    /// The line of a box, by its lowest and its highest stored X, Y and Z, which belong to it.
    ///
    /// They are the values that a file [stores](crate#boxes), and no coordinates.
    #[must_use]
    pub fn bounding_box(low: [i32; 3], high: [i32; 3]) -> Self {
        Line::Box { low, high }
    }

    /// Writes the line's bytes behind those that are there.
    pub(super) fn append_to(&self, bytes: &mut Vec<u8>) {
        bytes.extend(MARK);
        match self {
            Line::Classes { lowest, highest } => bytes.extend([1, *lowest, *highest]),
            Line::Record { user_id, record_id } => {
                bytes.push(2);
                bytes.extend(user_id.field());
                bytes.extend(record_id.to_le_bytes());
            }
            Line::Box { low, high } => {
                bytes.push(3);
                bytes.extend(bounds::to_bytes(*low, *high));
            }
        }
    }

    /// The line at the front of a sheet that passes, and the bytes behind it.
    fn split_from(sheet: &[u8]) -> Option<(Self, &[u8])> {
        let (kind, body) = sheet.strip_prefix(MARK)?.split_first()?;
        match kind {
            1 => {
                let (&[lowest, highest], rest) = body.split_first_chunk()?;
                Some((Line::Classes { lowest, highest }, rest))
            }
            2 => {
                let (field, rest) = body.split_first_chunk::<16>()?;
                let (record_id, rest) = rest.split_first_chunk()?;
                let line = Line::Record {
                    user_id: UserId::new(field).ok()?,
                    record_id: u16::from_le_bytes(*record_id),
                };
                Some((line, rest))
            }
            3 => {
                let (body, rest) = body.split_first_chunk()?;
                let (low, high) = bounds::from_bytes(body);
                Some((Line::Box { low, high }, rest))
            }
            _ => None,
        }
    }
}

impl fmt::Display for Line {
    fn fmt(&self, f: &mut fmt::Formatter<'_>) -> fmt::Result {
        match self {
            Line::Classes { lowest, highest } if lowest == highest => write!(f, "class {lowest}"),
            Line::Classes { lowest, highest } => write!(f, "class {lowest}-{highest}"),
            Line::Record { user_id, record_id } => write!(f, "record {user_id} {record_id}"),
            Line::Box { low, high } => bounds::write(f, low, high),
        }
    }
}

/// The iterator that [`Sheet::lines`](crate::Sheet::lines) gives.
#[derive(Clone, Debug)]
#[must_use = "an iterator does nothing until it is asked"]
pub struct Lines<'a> {
    rest: &'a [u8],
}

impl<'a> Lines<'a> {
    /// The lines of a sheet that passes.
    pub(super) fn new(sheet: &'a [u8]) -> Self {
        Lines { rest: sheet }
    }
}

impl Iterator for Lines<'_> {
    type Item = Line;

    fn next(&mut self) -> Option<Line> {
        if self.rest.is_empty() {
            return None;
        }
        let (line, rest) = Line::split_from(self.rest).expect("a sheet that passes is all lines");
        self.rest = rest;
        Some(line)
    }
}

impl FusedIterator for Lines<'_> {}

#[cfg(test)]
mod tests {
    use super::*;
    use crate::Sheet;

    /// A kind that the library takes and this crate does not know would be lost in a sheet's lines.
    #[test]
    fn every_kind_that_passes_is_known() {
        let mut passed = Vec::new();
        for kind in 0..=255 {
            for length in 0..100 {
                let bytes = [&MARK[..], &[kind], &vec![7; length]].concat();
                if Sheet::from_bytes(&*bytes).is_ok() {
                    assert_eq!(Lines::new(&bytes).count(), 1);
                    passed.push((kind, bytes.len()));
                }
            }
        }
        assert_eq!(passed, [(1, 5), (2, 21), (3, 27)]);
    }
}

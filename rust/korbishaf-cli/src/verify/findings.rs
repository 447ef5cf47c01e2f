//! What is in a file that a release would not have, as far as it can be told.
//!
//! These findings explain: whether a file is verified does not depend on them.

mod header;
mod in_records;
mod members;
mod points;
mod tail;
mod words;

use super::records::Name;
use crate::layout::Value;
use korbishaf::{Sheet, read_header};

/// Something that a release would not have.
#[derive(Debug)]
pub struct Finding {
    /// Its first byte.
    pub place: usize,
    /// How many bytes it has.
    pub length: usize,
    pub what: What,
}

/// What it is.
#[derive(Debug)]
pub enum What {
    /// Bytes of a text field behind the end of its text.
    TextTail {
        field: &'static str,
        record: Option<Name>,
        text: Vec<u8>,
    },
    /// A count by return or a bound that is not that of the file's own points.
    WrongValue {
        field: &'static str,
        stated: Value,
        actual: Value,
    },
    /// Extra header bytes.
    ExtraHeader { all_zero: bool },
    /// A record that the sheet does not keep.
    RecordNotKept { record: Name },
    /// Reserved bytes of a record that are not zero.
    Reserved { record: Name, bytes: Value },
    /// So many more findings in the records.
    MoreInRecords { count: usize },
    /// Bytes between the records, or the header where there are none, and the points.
    Gap {
        behind: &'static str,
        all_zero: bool,
    },
    /// Points of a class that the sheet does not keep, without those that are withheld.
    PointsNotKept { class: u8, points: Points },
    /// Points that are withheld, of whatever class.
    PointsWithheld { points: Points },
    /// Points outside all boxes of the sheet, of classes that it keeps and not withheld.
    PointsOutside { points: Points },
    /// Bytes behind the last counted point that are not all zero, as many as so many whole points and bytes.
    BehindPoints { whole: usize, over: usize },
}

/// Points that have something in common, and may have others between them.
#[derive(Clone, Copy, Debug)]
pub struct Points {
    pub count: usize,
    /// The index of the first, from 0.
    pub first: usize,
}

/// All findings in a file that passes, by their places.
pub fn all(file: &[u8], sheet: &Sheet) -> Vec<Finding> {
    let Ok(header) = read_header(file) else {
        return Vec::new();
    };
    let mut found = header::find(file, &header);
    let (in_records, records_end) = in_records::find(file, &header, sheet);
    found.extend(in_records);
    found.extend(points::find(file, &header, sheet, records_end));
    found.sort_by_key(|finding| finding.place);
    found
}

/// Whether a part of a file has no byte that is not zero.
fn all_zero(part: &[u8]) -> bool {
    part.iter().all(|&byte| byte == 0)
}

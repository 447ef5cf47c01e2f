//! The parts of a file, and their names in words.

use super::records;
use crate::layout::{self, Kind, Value};
use korbishaf::read_header;
use std::iter::repeat;

/// The first place where a file is not what a release gives.
#[derive(Debug)]
pub struct Difference {
    /// The first byte that differs.
    pub place: usize,
    /// The part that it is in, in words.
    pub part: String,
    /// What stands in that part.
    pub found: Value,
    /// What a release has there.
    pub wanted: Value,
}

impl Difference {
    /// The difference at a place. Behind the released file there are zeros.
    pub fn at(place: usize, file: &[u8], released: &[u8]) -> Self {
        let part = part_at(file, place);
        let bytes = |file: &[u8]| -> Vec<u8> {
            let from = file.iter().copied().skip(part.place);
            from.chain(repeat(0)).take(part.width).collect()
        };
        Difference {
            place,
            found: Value::read(part.kind, &bytes(file)),
            wanted: Value::read(part.kind, &bytes(released)),
            part: part.name,
        }
    }
}

/// A part of a file.
struct Part {
    name: String,
    place: usize,
    width: usize,
    kind: Kind,
}

/// The part that a place of a file is in.
fn part_at(file: &[u8], place: usize) -> Part {
    let in_header = layout::at(place).map(|field| Part {
        name: field.name.into(),
        place: field.place,
        width: field.width,
        kind: field.kind,
    });
    in_header
        .or_else(|| in_record(file, place))
        .unwrap_or_else(|| Part {
            name: behind_records(file, place).into(),
            place,
            width: 1,
            kind: Kind::Bytes,
        })
}

/// The field of a record that a place is in, of those that a release does not copy as they are.
fn in_record(file: &[u8], place: usize) -> Option<Part> {
    let record = records::placed(file).find(|record| record.end() > place)?;
    let (field, at, width, kind) = match place.checked_sub(record.place)? {
        0..2 => ("reserved bytes", 0, 2, Kind::Bytes),
        2..18 => ("user ID", 2, 16, Kind::Text),
        22..54 => ("description", 22, 32, Kind::Text),
        _ => return None,
    };
    Some(Part {
        name: format!("{field} of {}", record.name),
        place: record.place + at,
        width,
        kind,
    })
}

/// What there is at a place that is in no header.
fn behind_records(file: &[u8], place: usize) -> &'static str {
    match points_end(file) {
        Some(end) if place >= end => "behind the last counted point",
        _ => "before the end of the points",
    }
}

/// Where the points of a file that passes end.
pub fn points_end(file: &[u8]) -> Option<usize> {
    let header = read_header(file).ok()?;
    let points = u64::from(header.point_count) * u64::from(header.record_length);
    usize::try_from(u64::from(header.point_offset) + points).ok()
}

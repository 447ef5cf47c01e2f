//! What a file has beside header, records and points.

use crate::layout::{HEADER, RECORD_HEADER};
use korbishaf::{Header, Records};

/// A part of a file that no field speaks of.
#[derive(Clone, Copy, Debug, PartialEq, Eq)]
pub struct Part {
    /// The number of its bytes.
    pub length: usize,
    /// Whether all of them are zero.
    pub all_zero: bool,
}

impl Part {
    /// The part from a place to another; none where there is nothing.
    fn of(file: &[u8], from: usize, to: usize) -> Self {
        let bytes = file.get(from..to).unwrap_or_default();
        Part {
            length: bytes.len(),
            all_zero: bytes.iter().all(|&byte| byte == 0),
        }
    }
}

/// The three such parts.
#[derive(Clone, Copy, Debug, PartialEq, Eq)]
pub struct Parts {
    /// Between the header's fields and the records.
    pub extra_header: Part,
    /// Between the records and the points.
    pub gap: Part,
    /// Behind the points.
    pub trailing: Part,
}

impl Parts {
    /// The parts of a file that passes.
    pub fn of(file: &[u8], header: &Header<'_>, records: Records<'_>) -> Self {
        let header_size = usize::from(header.header_size);
        let records_length: usize = records
            .map(|record| RECORD_HEADER + record.payload.len())
            .sum();
        let points = header.point_offset as usize;
        let points_length = header.point_count as usize * usize::from(header.record_length);
        Parts {
            extra_header: Part::of(file, HEADER, header_size),
            gap: Part::of(file, header_size + records_length, points),
            trailing: Part::of(file, points + points_length, file.len()),
        }
    }

    /// The parts with their names, as text and as JSON have them.
    pub fn named(&self) -> [(&'static str, &'static str, Part); 3] {
        [
            (
                "extra header bytes",
                "extra_header_bytes",
                self.extra_header,
            ),
            ("gap before the points", "gap_before_points", self.gap),
            (
                "bytes behind the points",
                "bytes_behind_points",
                self.trailing,
            ),
        ]
    }
}

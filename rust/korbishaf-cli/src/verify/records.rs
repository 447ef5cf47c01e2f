//! The records of a file, with their places and names.

use crate::layout::RECORD_HEADER;
use korbishaf::Record;
use std::fmt;

/// Which record of a file it is.
#[derive(Clone, Debug)]
pub struct Name {
    /// Its number, from 1.
    pub number: usize,
    /// How many the file states.
    pub of: usize,
    pub user_id: Vec<u8>,
    pub record_id: u16,
}

impl fmt::Display for Name {
    fn fmt(&self, f: &mut fmt::Formatter<'_>) -> fmt::Result {
        let user_id = crate::shown::text(&self.user_id);
        let (number, of, record_id) = (self.number, self.of, self.record_id);
        write!(
            f,
            "record {number} of {of} (user ID \"{user_id}\", record ID {record_id})"
        )
    }
}

/// A record and its place.
pub struct Placed<'a> {
    pub place: usize,
    pub name: Name,
    pub record: Record<'a>,
}

impl Placed<'_> {
    /// The bytes of the whole record.
    pub fn length(&self) -> usize {
        RECORD_HEADER + self.record.payload.len()
    }

    /// The place just behind the record.
    pub fn end(&self) -> usize {
        self.place + self.length()
    }
}

/// The records of a file, in order; none where the file does not pass.
pub fn placed(file: &[u8]) -> impl Iterator<Item = Placed<'_>> {
    let records = korbishaf::records(file).ok();
    let of = records.as_ref().map_or(0, ExactSizeIterator::len);
    let start = korbishaf::read_header(file).map_or(0, |header| header.header_size.into());
    records
        .into_iter()
        .flatten()
        .enumerate()
        .scan(start, move |next, (index, record)| {
            let placed = Placed {
                place: *next,
                name: Name {
                    number: index + 1,
                    of,
                    user_id: record.user_id.to_vec(),
                    record_id: record.record_id,
                },
                record,
            };
            *next = placed.end();
            Some(placed)
        })
}

//! The variable length records before the points.

use crate::error::{Error, passes};
use crate::header::read_header;
use crate::{cut, narrow, part, sys};
use std::iter::FusedIterator;

/// A variable length record. Its texts and its payload are parts of the file.
#[derive(Clone, Copy, Debug, PartialEq, Eq, Hash)]
pub struct Record<'a> {
    /// The user ID, [cut](crate#texts).
    pub user_id: &'a [u8],
    /// The record ID.
    pub record_id: u16,
    /// The description, [cut](crate#texts).
    pub description: &'a [u8],
    /// The payload.
    pub payload: &'a [u8],
}

/// What one step of the walk over the records answers.
#[derive(Clone, Copy, Debug, PartialEq, Eq, Hash)]
pub struct Step<'a> {
    /// The record at the step's position.
    pub record: Record<'a>,
    /// The index for the next step: the step's own plus 1.
    pub next_index: u64,
    /// The position for the next step: the place just after the record.
    pub next_position: u64,
}

/// One step of the walk over the records: the record at a position. The first step is at index 0 and the header
/// size, and the one after the last record is refused with 18; [`records`] takes them all.
///
/// Index and position need not belong together. The file is checked at every step.
///
/// # Errors
///
/// 1 to 10 where the file does not pass, then 18 where the index is not below the number of records, the position is
/// below the header size, or a record there would run past the point offset.
pub fn step(file: &[u8], index: u64, position: u64) -> Result<Step<'_>, Error> {
    // SAFETY: pointer and length are those of one slice.
    let found = unsafe { sys::las_vlr_step(file.as_ptr(), file.len() as u64, index, position) };
    passes(found.number)?;
    Ok(Step {
        record: Record {
            user_id: part(file, found.user_place, found.user_length),
            record_id: narrow(found.record_id),
            description: part(file, found.description_place, found.description_length),
            payload: part(file, found.payload_place, found.payload_length),
        },
        next_index: found.next_index,
        next_position: found.next_position,
    })
}

/// The variable length records of a file that passes, in order: what [`step`] answers from index 0 and the header
/// size on.
///
/// The library checks the file once; each record is then read out of the checked bytes, so that all of them together
/// take a time that grows with their number.
///
/// # Errors
///
/// 1 to 10 where the file does not pass.
pub fn records(file: &[u8]) -> Result<Records<'_>, Error> {
    let header = read_header(file)?;
    Ok(Records {
        rest: &file[usize::from(header.header_size)..header.point_offset as usize],
        left: header.record_count as usize,
    })
}

/// The iterator that [`records`] gives.
#[derive(Clone, Debug)]
#[must_use = "an iterator does nothing until it is asked"]
pub struct Records<'a> {
    /// The bytes from the next record to the points.
    rest: &'a [u8],
    /// The number of records that are left.
    left: usize,
}

impl<'a> Iterator for Records<'a> {
    type Item = Record<'a>;

    fn next(&mut self) -> Option<Record<'a>> {
        let left = self.left.checked_sub(1)?;
        // The file passes, so that every counted record lies before the points.
        let (record, rest) = split_record(self.rest)?;
        (self.rest, self.left) = (rest, left);
        Some(record)
    }

    fn size_hint(&self) -> (usize, Option<usize>) {
        (self.left, Some(self.left))
    }
}

impl ExactSizeIterator for Records<'_> {}

impl FusedIterator for Records<'_> {}

/// The record at the front and the bytes behind it, or none where it is cut short.
fn split_record(bytes: &[u8]) -> Option<(Record<'_>, &[u8])> {
    let (header, rest) = bytes.split_first_chunk::<54>()?;
    let number_at = |at: usize| u16::from_le_bytes([header[at], header[at + 1]]);
    let (payload, rest) = rest.split_at_checked(number_at(20).into())?;
    let record = Record {
        user_id: cut(&header[2..18]),
        record_id: number_at(18),
        description: cut(&header[22..54]),
        payload,
    };
    Some((record, rest))
}

#[cfg(test)]
mod tests {
    use super::*;
    use crate::error::ANSWERS;

    /// Fields of user IDs, as files may have them; a description's field is two of them, side by side.
    const USER_IDS: [&[u8; 16]; 7] = [
        b"user\0\0\0\0\0\0\0\0\0\0\0\0",
        b"user            ",
        b"user   \0 x      ",
        b" us er \0\0\0\0\0\0\0\0\0",
        b"                ",
        b"\0             x ",
        b"           user\t",
    ];

    /// A file of that many records, whose payloads have 0 to 2 bytes, and no points.
    fn file(count: u32) -> Vec<u8> {
        let mut file = vec![0; 227];
        file[..4].copy_from_slice(b"LASF");
        file[24..26].copy_from_slice(&[1, 2]);
        file[94..96].copy_from_slice(&227u16.to_le_bytes());
        file[100..104].copy_from_slice(&count.to_le_bytes());
        file[105..107].copy_from_slice(&20u16.to_le_bytes());
        for scale in [131, 139, 147] {
            file[scale..scale + 8].copy_from_slice(&1f64.to_le_bytes());
        }
        for index in 0..count {
            let length = (index % 3) as u8;
            let mut header = [0; 54];
            let [one, other] = [index, index / 7].map(|index| USER_IDS[index as usize % 7]);
            header[2..18].copy_from_slice(one);
            header[22..38].copy_from_slice(one);
            header[38..54].copy_from_slice(other);
            header[18..20].copy_from_slice(&(index as u16).to_le_bytes());
            header[20] = length;
            file.extend(header);
            file.extend(vec![0xEE; length.into()]);
        }
        let offset = file.len() as u32;
        file[96..100].copy_from_slice(&offset.to_le_bytes());
        file
    }

    #[test]
    fn the_library_is_asked_once_however_many_records_there_are() {
        for count in [0, 1, 500, 1000, 100_000] {
            let file = file(count);
            let before = ANSWERS.get();
            assert_eq!(records(&file).unwrap().count(), count as usize);
            assert_eq!(ANSWERS.get() - before, 1, "{count}");
        }
    }

    #[test]
    fn each_turn_goes_on_by_its_own_record_and_never_back() {
        let file = file(1000);
        let mut walk = records(&file).unwrap();
        for index in 0..1000 {
            let (length, left) = (walk.rest.len(), walk.left);
            let record = walk.next().unwrap();
            assert_eq!(record.record_id, index);
            assert_eq!(record.payload.len(), usize::from(index % 3));
            assert_eq!(length - walk.rest.len(), 54 + record.payload.len());
            assert_eq!(left - walk.left, 1);
        }
        assert!(walk.rest.is_empty() && walk.next().is_none());
    }

    #[test]
    fn walk_and_steps_agree() {
        let file = file(50);
        let mut position = 227;
        for (index, record) in (0..).zip(records(&file).unwrap()) {
            let found = step(&file, index, position).unwrap();
            assert_eq!(found.record, record);
            position = found.next_position;
        }
        assert_eq!(step(&file, 50, position).unwrap_err().number(), 18);
    }

    #[test]
    fn a_record_that_is_cut_short_is_none() {
        let mut bytes = [0; 56];
        bytes[20] = 2;
        assert!(split_record(&bytes).is_some());
        assert!((0..56).all(|length| split_record(&bytes[..length]).is_none()));
    }
}

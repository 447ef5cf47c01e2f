//! Variable length records, which stand between the header and the points.

use crate::bytes::{cut, put, u16_at};

/// The size of a record's header.
pub(crate) const HEAD: usize = 54;

/// One variable length record.
#[derive(Debug, Clone, Copy, PartialEq, Eq)]
pub struct Vlr<'a> {
    /// Where the record begins in the file.
    pub place: usize,
    /// The user ID's meaning, without its padding.
    pub user_id: &'a [u8],
    pub record_id: u16,
    /// The description's meaning, without its padding.
    pub description: &'a [u8],
    pub payload: &'a [u8],
}

impl<'a> Vlr<'a> {
    /// The record that begins at `place`, if all of it lies in `area`, the
    /// file up to its points.
    pub(crate) fn read(area: &'a [u8], place: usize) -> Option<Self> {
        let (head, rest) = area.get(place..)?.split_first_chunk::<HEAD>()?;
        let payload = rest.get(..usize::from(u16_at(head, 20)))?;
        Some(Self::with_payload(place, head, payload))
    }

    /// The record at `place` with this header and payload; the length in the header is not looked at.
    pub(crate) fn with_payload(place: usize, head: &'a [u8; HEAD], payload: &'a [u8]) -> Self {
        Self {
            place,
            user_id: cut(&head[2..18]),
            record_id: u16_at(head, 18),
            description: cut(&head[22..54]),
            payload,
        }
    }

    /// Where the user ID stands in the file.
    pub fn user_place(&self) -> usize {
        self.place + 2
    }

    /// Where the description stands in the file.
    pub fn description_place(&self) -> usize {
        self.place + 22
    }

    /// Where the payload stands in the file.
    pub fn payload_place(&self) -> usize {
        self.place + HEAD
    }

    /// The place just after the record.
    pub fn end(&self) -> usize {
        self.place + self.size()
    }

    /// The bytes of the whole record.
    pub fn size(&self) -> usize {
        HEAD + self.payload.len()
    }

    /// Writes the record over `room` of its size: reserved 0, texts padded with zeros.
    pub(crate) fn write(&self, room: &mut [u8]) {
        let (head, payload) = room.split_at_mut(HEAD);
        head.fill(0);
        put(head, 2, self.user_id);
        put(head, 18, &self.record_id.to_le_bytes());
        let length = self.payload.len() as u16;
        put(head, 20, &length.to_le_bytes());
        put(head, 22, self.description);
        payload.copy_from_slice(self.payload);
    }
}

/// The counted records of a file, in order. It ends early at a record that
/// does not fit before the points.
#[derive(Debug, Clone)]
pub struct Vlrs<'a> {
    area: &'a [u8],
    position: usize,
    left: u32,
}

impl<'a> Vlrs<'a> {
    /// The first `count` records that lie in `area` from `position` on.
    pub(crate) fn new(area: &'a [u8], position: usize, count: u32) -> Self {
        Self {
            area,
            position,
            left: count,
        }
    }

    /// Walks to the end and says whether every counted record fits.
    pub(crate) fn all_fit(mut self) -> bool {
        self.by_ref().for_each(drop);
        self.left == 0
    }
}

impl<'a> Iterator for Vlrs<'a> {
    type Item = Vlr<'a>;

    fn next(&mut self) -> Option<Vlr<'a>> {
        if self.left == 0 {
            return None;
        }
        let vlr = Vlr::read(self.area, self.position)?;
        self.position = vlr.end();
        self.left -= 1;
        Some(vlr)
    }
}

#[cfg(test)]
mod tests {
    use super::*;

    fn record(payload: &[u8]) -> Vec<u8> {
        let vlr = Vlr {
            place: 0,
            user_id: b"user",
            record_id: 7,
            description: b"text",
            payload,
        };
        let mut room = vec![0xAA; vlr.size()];
        vlr.write(&mut room);
        room
    }

    #[test]
    fn a_written_record_reads_back() {
        let room = record(b"payload");
        let vlr = Vlr::read(&room, 0).unwrap();
        assert_eq!(vlr.user_id, b"user");
        assert_eq!(vlr.record_id, 7);
        assert_eq!(vlr.description, b"text");
        assert_eq!(vlr.payload, b"payload");
        assert_eq!(vlr.end(), room.len());
    }

    #[test]
    fn texts_padded_with_spaces_read_as_those_padded_with_zeros() {
        let zeros = record(b"payload ");
        let mut spaces = zeros.clone();
        spaces[6..18].fill(b' ');
        spaces[26..54].fill(b' ');
        assert_eq!(Vlr::read(&spaces, 0), Vlr::read(&zeros, 0));
    }

    #[test]
    fn a_record_one_past_the_area_is_none() {
        let room = record(b"payload");
        assert_eq!(Vlr::read(&room[..room.len() - 1], 0), None);
        assert_eq!(Vlr::read(&room[..53], 0), None);
        assert_eq!(Vlr::read(&room, usize::MAX), None);
    }

    #[test]
    fn the_walk_ends_at_the_count_or_at_a_record_that_does_not_fit() {
        let area = [record(b"a"), record(b"bc")].concat();
        assert_eq!(Vlrs::new(&area, 0, 1).count(), 1);
        assert!(Vlrs::new(&area, 0, 2).all_fit());
        assert!(!Vlrs::new(&area, 0, u32::MAX).all_fit());
    }
}

//! GeoKeys: a directory of keys, and records with doubles and texts.

use crate::bytes::{u16_at, u64_at};
use crate::refusal::Refusal;
use crate::vlr::{Vlr, Vlrs};

/// The user ID of the three GeoKey records.
pub const USER_ID: &[u8] = b"LASF_Projection";
/// The record ID of the directory.
pub const DIRECTORY: u16 = 34735;
/// The record ID of the doubles, and the location that means them.
pub const DOUBLES: u16 = 34736;
/// The record ID of the texts, and the location that means them.
pub const TEXTS: u16 = 34737;
/// The bytes of the directory's head and of one entry.
pub const ENTRY: usize = 8;

/// The value of a key.
#[derive(Debug, Clone, Copy, PartialEq, Eq)]
pub enum GeoValue {
    /// Location 0: the value itself.
    Short(u16),
    /// Location 34736: a double's 64 bits.
    Double(u64),
    /// Location 34737: where the text stands in the file, and its length.
    Text { place: usize, length: u16 },
}

/// One entry of the directory.
#[derive(Debug, Clone, Copy)]
pub struct Entry {
    pub key: u16,
    location: u16,
    count: u16,
    value_offset: u16,
}

/// Finds the value of the first entry with this key, or gives 40 to 46.
pub fn find(vlrs: &Vlrs<'_>, key: u16) -> Result<GeoValue, Refusal> {
    entries(vlrs)?
        .iter()
        .map(Entry::read)
        .find(|entry| entry.key == key)
        .ok_or(Refusal::NoSuchKey)?
        .value(vlrs)
}

/// The bytes of each entry of the first directory; 40 if there is none, 41 if it is not sound.
pub fn entries<'a>(vlrs: &Vlrs<'a>) -> Result<&'a [[u8; ENTRY]], Refusal> {
    let directory = projection_record(vlrs, DIRECTORY).ok_or(Refusal::NoDirectory)?;
    entries_of(directory.payload).ok_or(Refusal::BadDirectory)
}

/// The first GeoKey record with this record ID.
fn projection_record<'a>(vlrs: &Vlrs<'a>, record_id: u16) -> Option<Vlr<'a>> {
    vlrs.clone()
        .find(|vlr| vlr.user_id == USER_ID && vlr.record_id == record_id)
}

/// The entries of a sound directory; bytes after them do not count.
fn entries_of(payload: &[u8]) -> Option<&[[u8; ENTRY]]> {
    let (head, rest) = payload.as_chunks().0.split_first()?;
    if [u16_at(head, 0), u16_at(head, 2), u16_at(head, 4)] != [1, 1, 0] {
        return None;
    }
    rest.get(..usize::from(u16_at(head, 6)))
}

impl Entry {
    pub fn read(bytes: &[u8; ENTRY]) -> Self {
        Self {
            key: u16_at(bytes, 0),
            location: u16_at(bytes, 2),
            count: u16_at(bytes, 4),
            value_offset: u16_at(bytes, 6),
        }
    }

    /// The value that the entry holds or points to, or 43 to 46.
    pub fn value(&self, vlrs: &Vlrs<'_>) -> Result<GeoValue, Refusal> {
        if !matches!(self.location, 0 | DOUBLES | TEXTS) {
            return Err(Refusal::UnknownLocation);
        }
        if self.location != TEXTS && self.count != 1 {
            return Err(Refusal::WrongCount);
        }
        if self.location == 0 {
            return Ok(GeoValue::Short(self.value_offset));
        }
        let parameters = projection_record(vlrs, self.location).ok_or(Refusal::NoParameters)?;
        let value = match self.location {
            DOUBLES => self.double_in(&parameters),
            _ => self.text_in(&parameters),
        };
        value.ok_or(Refusal::ValuePastParameters)
    }

    fn double_in(&self, parameters: &Vlr<'_>) -> Option<GeoValue> {
        let start = 8 * usize::from(self.value_offset);
        let bytes = parameters.payload.get(start..start + 8)?;
        Some(GeoValue::Double(u64_at(bytes, 0)))
    }

    fn text_in(&self, parameters: &Vlr<'_>) -> Option<GeoValue> {
        let start = usize::from(self.value_offset);
        parameters
            .payload
            .get(start..start + usize::from(self.count))?;
        Some(GeoValue::Text {
            place: parameters.payload_place() + start,
            length: self.count,
        })
    }
}

#[cfg(test)]
mod tests {
    use super::*;
    use crate::sample::{geokey_directory, geokey_records};

    fn lookup(records: &[(u16, Vec<u8>)], key: u16) -> Result<GeoValue, Refusal> {
        let area = geokey_records(records);
        find(&Vlrs::new(&area, 0, records.len() as u32), key)
    }

    fn directory(entry: [u16; 4]) -> (u16, Vec<u8>) {
        geokey_directory(&[entry])
    }

    #[test]
    fn the_three_kinds_of_values_are_found() {
        let doubles = (
            DOUBLES,
            [1.5f64.to_le_bytes(), 2.5f64.to_le_bytes()].concat(),
        );
        let texts = (TEXTS, b"one|two|".to_vec());
        assert_eq!(
            lookup(&[directory([7, 0, 1, 9])], 7),
            Ok(GeoValue::Short(9))
        );
        assert_eq!(
            lookup(&[directory([7, DOUBLES, 1, 1]), doubles], 7),
            Ok(GeoValue::Double(2.5f64.to_bits()))
        );
        assert_eq!(
            lookup(&[directory([7, TEXTS, 4, 4]), texts], 7),
            Ok(GeoValue::Text {
                place: 54 + 16 + 54 + 4,
                length: 4
            })
        );
    }

    #[test]
    fn names_padded_with_a_space_are_found_and_values_keep_their_spaces() {
        let texts = (TEXTS, b"one     ".to_vec());
        let mut area = geokey_records(&[directory([7, TEXTS, 4, 0]), texts]);
        let text = GeoValue::Text {
            place: 54 + 16 + 54,
            length: 4,
        };
        for last_of_name in [17, 54 + 16 + 17] {
            area[last_of_name] = b' ';
            assert_eq!(find(&Vlrs::new(&area, 0, 2), 7), Ok(text));
        }
        area[54 + 16 + 17] = b'\t';
        assert_eq!(find(&Vlrs::new(&area, 0, 2), 7), Err(Refusal::NoParameters));
        area[17] = b'\t';
        assert_eq!(find(&Vlrs::new(&area, 0, 2), 7), Err(Refusal::NoDirectory));
    }

    #[test]
    fn each_fault_has_its_refusal() {
        let doubles = (DOUBLES, vec![0; 15]);
        let texts = (TEXTS, vec![0; 4]);
        assert_eq!(lookup(&[], 7), Err(Refusal::NoDirectory));
        assert_eq!(
            lookup(&[(DIRECTORY, vec![0; 8])], 7),
            Err(Refusal::BadDirectory)
        );
        assert_eq!(
            lookup(&[directory([7, 0, 1, 9])], 8),
            Err(Refusal::NoSuchKey)
        );
        assert_eq!(
            lookup(&[directory([7, 34767, 1, 9])], 7),
            Err(Refusal::UnknownLocation)
        );
        assert_eq!(
            lookup(&[directory([7, DOUBLES, 2, 9])], 7),
            Err(Refusal::WrongCount)
        );
        assert_eq!(
            lookup(&[directory([7, TEXTS, 2, 9])], 7),
            Err(Refusal::NoParameters)
        );
        assert_eq!(
            lookup(&[directory([7, DOUBLES, 1, 1]), doubles], 7),
            Err(Refusal::ValuePastParameters)
        );
        assert_eq!(
            lookup(&[directory([7, TEXTS, 0, 5]), texts.clone()], 7),
            Err(Refusal::ValuePastParameters)
        );
        assert!(lookup(&[directory([7, TEXTS, 0, 4]), texts], 7).is_ok());
    }
}

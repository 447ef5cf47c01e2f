//! The records of the GeoKeys, apart from all others.

use super::records::{DIRECTORY, DOUBLES, PROJECTION, TEXTS};
use crate::layout::{Field, HEADER, HEADER_SIZE, POINT_COUNT, POINT_OFFSET, RECORD_COUNT};
use korbishaf::{Record, Records};

/// The first record with the GeoKeys' user ID and this record ID.
pub fn first<'a>(mut records: Records<'a>, record_id: u16) -> Option<Record<'a>> {
    records.find(|record| (record.user_id, record.record_id) == (PROJECTION, record_id))
}

/// The header of a file that passes, and behind it the first of each of its GeoKeys' records. A lookup answers the same
/// there, and need not go past all other records, which would take long where there are many of them and many keys.
pub fn alone(file: &[u8], records: &Records<'_>) -> Vec<u8> {
    let mut alone = file.get(..HEADER).unwrap_or_default().to_vec();
    let found = [DIRECTORY, DOUBLES, TEXTS].map(|record_id| first(records.clone(), record_id));
    let mut count = 0;
    for record in found.into_iter().flatten() {
        append(&mut alone, &record);
        count += 1;
    }
    let length = alone.len() as u64;
    for (field, number) in [
        (HEADER_SIZE, HEADER as u64),
        (POINT_OFFSET, length),
        (RECORD_COUNT, count),
        (POINT_COUNT, 0),
    ] {
        set(&mut alone, &field, number);
    }
    alone
}

/// Puts a record behind what is there, without its description.
fn append(file: &mut Vec<u8>, record: &Record<'_>) {
    let mut user_id = record.user_id.to_vec();
    user_id.resize(16, 0);
    // a payload's length has two bytes in the file that it comes from, too
    let length = record.payload.len() as u16;
    file.extend([0; 2]);
    file.extend(user_id);
    file.extend(record.record_id.to_le_bytes());
    file.extend(length.to_le_bytes());
    file.extend([0; 32]);
    file.extend(record.payload);
}

/// Sets a field of the header to a number.
fn set(file: &mut [u8], field: &Field, number: u64) {
    let bytes = file.iter_mut().skip(field.place).take(field.width);
    for (byte, value) in bytes.zip(number.to_le_bytes()) {
        *byte = value;
    }
}

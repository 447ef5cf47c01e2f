//! Records by name.

use crate::shown;
use korbishaf::Record;

/// The user ID of the GeoKeys' records.
pub const PROJECTION: &[u8] = b"LASF_Projection";

/// The record ID of the GeoKey directory.
pub const DIRECTORY: u16 = 34735;

/// The record ID of the GeoKeys' doubles, and the location that means them.
pub const DOUBLES: u16 = 34736;

/// The record ID of the GeoKeys' texts, and the location that means them.
pub const TEXTS: u16 = 34737;

/// What a record is that LAS 1.2 lays down.
pub fn well_known(record: &Record<'_>) -> Option<&'static str> {
    match (record.user_id, record.record_id) {
        (PROJECTION, DIRECTORY) => Some("GeoKey directory"),
        (PROJECTION, DOUBLES) => Some("GeoKey doubles"),
        (PROJECTION, TEXTS) => Some("GeoKey texts"),
        (b"LASF_Spec", 0) => Some("classification lookup"),
        (b"LASF_Spec", 2) => Some("histogram"),
        (b"LASF_Spec", 3) => Some("text area description"),
        _ => None,
    }
}

/// A record's user ID and record ID, as in `"yard" 7`.
pub fn name(record: &Record<'_>) -> String {
    format!("\"{}\" {}", shown::text(record.user_id), record.record_id)
}

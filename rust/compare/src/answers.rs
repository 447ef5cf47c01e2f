//! Answers as plain numbers, in which both sides are compared.
//!
//! On a refusal every field but the number is 0, except that a release with
//! number 30 has the needed length, and a lookup by halving with 42 to 46 the
//! entries read.

/// The answer of a release.
#[derive(Debug, Clone, Copy, PartialEq, Eq, Default)]
pub struct Released {
    pub number: u64,
    pub length: u64,
    pub points: u64,
    pub records: u64,
}

/// A line of a cutting list: a place in the file and a length.
pub use korbishaf::sys::las_line as Line;

/// The answer of a cutting list.
#[derive(Debug, Clone, Copy, PartialEq, Eq, Default)]
pub struct Listed {
    pub number: u64,
    pub lines: u64,
}

/// The answer of a mending.
#[derive(Debug, Clone, Copy, PartialEq, Eq, Default)]
pub struct Mended {
    pub number: u64,
    /// Number of points, points by return 1 to 5, max X, min X, max Y, min Y, max Z, min Z.
    pub marks: [u64; 12],
}

/// The answer of one step of the walk over records.
#[derive(Debug, Clone, Copy, PartialEq, Eq, Default)]
pub struct Record {
    pub number: u64,
    pub user_place: u64,
    pub user_length: u64,
    pub record_id: u64,
    pub description_place: u64,
    pub description_length: u64,
    pub payload_place: u64,
    pub payload_length: u64,
    pub next_index: u64,
    pub next_position: u64,
}

/// The answer for one point; also the fields handed to the encoder.
#[derive(Debug, Clone, Copy, PartialEq, Eq, Default)]
pub struct Point {
    pub number: u64,
    pub place: u64,
    pub gps_time: u64,
    pub x: i32,
    pub y: i32,
    pub z: i32,
    pub intensity: u16,
    pub source_id: u16,
    pub red: u16,
    pub green: u16,
    pub blue: u16,
    pub return_number: u8,
    pub returns: u8,
    pub classification: u8,
    pub user_data: u8,
    pub scan_direction: u8,
    pub edge: u8,
    pub scan_angle: i8,
    pub synthetic: u8,
    pub key_point: u8,
    pub withheld: u8,
}

/// The answer of a GeoKey lookup.
#[derive(Debug, Clone, Copy, PartialEq, Eq, Default)]
pub struct GeoKey {
    pub number: u64,
    pub location: u64,
    pub value: u64,
    pub length: u64,
}

/// The answer of a GeoKey lookup by halving, and how many entries were read.
#[derive(Debug, Clone, Copy, PartialEq, Eq, Default)]
pub struct GeoKeyRead {
    pub number: u64,
    pub location: u64,
    pub value: u64,
    pub length: u64,
    pub reads: u64,
}

impl GeoKeyRead {
    /// The answer without the entries read, as a plain lookup has it.
    pub fn geokey(self) -> GeoKey {
        GeoKey {
            number: self.number,
            location: self.location,
            value: self.value,
            length: self.length,
        }
    }
}

/// The answer to whether a sheet keeps something.
#[derive(Debug, Clone, Copy, PartialEq, Eq, Default)]
pub struct Kept {
    pub number: u64,
    pub kept: u64,
}

/// The answer to whether a line of a sheet holds a class, and how many lines were looked at.
#[derive(Debug, Clone, Copy, PartialEq, Eq, Default)]
pub struct ClassLine {
    pub number: u64,
    pub kept: u64,
    pub lines: u64,
}

/// The answer with a header's fields; doubles by their bits.
#[derive(Debug, Clone, Copy, PartialEq, Eq, Default)]
pub struct Header {
    pub number: u64,
    pub file_source_id: u64,
    pub global_encoding: u64,
    pub guid: [u64; 4],
    pub version: [u64; 2],
    pub system_length: u64,
    pub software_length: u64,
    pub day: u64,
    pub year: u64,
    pub header_size: u64,
    pub point_offset: u64,
    pub vlr_count: u64,
    pub point_format: u64,
    pub record_length: u64,
    pub point_count: u64,
    pub by_return: [u64; 5],
    pub scale: [u64; 3],
    pub offset: [u64; 3],
    /// Max X, min X, max Y, min Y, max Z, min Z.
    pub bounds: [u64; 6],
}

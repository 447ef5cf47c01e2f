//! The file checks and the header.

use crate::error::{Error, passes};
use crate::points::{Point, coordinate};
use crate::{narrow, part, sys};
use std::fmt;

/// Checks a file.
///
/// # Errors
///
/// 1 to 10 where the file does not pass.
///
/// ```
/// assert_eq!(korbishaf::check_file(&[0; 226]).unwrap_err().number(), 1);
/// assert_eq!(korbishaf::check_file(&[0; 227]).unwrap_err().number(), 2);
/// ```
pub fn check_file(file: &[u8]) -> Result<(), Error> {
    // SAFETY: pointer and length are those of one slice.
    passes(unsafe { sys::las_check_file(file.as_ptr(), file.len() as u64) })
}

/// A project GUID, in the four parts that the file has it in.
///
/// It shows itself in the usual way, as `00112233-4455-6677-8899-aabbccddeeff`.
#[derive(Clone, Copy, Debug, Default, PartialEq, Eq, Hash)]
pub struct Guid {
    /// The first part, bytes 8 to 11 of the file.
    pub data_1: u32,
    /// The second part, bytes 12 and 13.
    pub data_2: u16,
    /// The third part, bytes 14 and 15.
    pub data_3: u16,
    /// The last part, bytes 16 to 23 in their order.
    pub data_4: [u8; 8],
}

impl fmt::Display for Guid {
    fn fmt(&self, f: &mut fmt::Formatter<'_>) -> fmt::Result {
        let [a, b, rest @ ..] = self.data_4;
        write!(
            f,
            "{:08x}-{:04x}-{:04x}-{a:02x}{b:02x}-",
            self.data_1, self.data_2, self.data_3
        )?;
        rest.iter().try_for_each(|byte| write!(f, "{byte:02x}"))
    }
}

/// The fields of a header, as the file states them: its counts and bounds may be wrong about its points.
///
/// Texts are parts of the file, [cut](crate#texts). Triples stand in the order X, Y, Z.
#[derive(Clone, Debug, PartialEq)]
pub struct Header<'a> {
    /// The file source ID.
    pub file_source_id: u16,
    /// The global encoding, bit by bit.
    pub global_encoding: u16,
    /// The project GUID.
    pub guid: Guid,
    /// The version, major and minor: 1 and 2.
    pub version: (u8, u8),
    /// The system identifier.
    pub system_identifier: &'a [u8],
    /// The generating software.
    pub generating_software: &'a [u8],
    /// The creation day of the year.
    pub creation_day: u16,
    /// The creation year.
    pub creation_year: u16,
    /// The header size, at least 227.
    pub header_size: u16,
    /// The place of the first point.
    pub point_offset: u32,
    /// The number of variable length records.
    pub record_count: u32,
    /// The point format, 0 to 3.
    pub point_format: u8,
    /// The length of a point record.
    pub record_length: u16,
    /// The number of points.
    pub point_count: u32,
    /// The numbers of points by return, 1 to 5.
    pub points_by_return: [u32; 5],
    /// The scales.
    pub scale: [f64; 3],
    /// The offsets.
    pub offset: [f64; 3],
    /// The largest coordinates.
    pub max: [f64; 3],
    /// The smallest coordinates.
    pub min: [f64; 3],
}

impl Header<'_> {
    /// The coordinates of a point under this header's scales and offsets.
    #[must_use]
    pub fn coordinates(&self, point: &Point) -> [f64; 3] {
        let stored = [point.x, point.y, point.z];
        std::array::from_fn(|axis| coordinate(stored[axis], self.scale[axis], self.offset[axis]))
    }
}

/// Reads the header of a file that passes.
///
/// # Errors
///
/// 1 to 10 where the file does not pass.
pub fn read_header(file: &[u8]) -> Result<Header<'_>, Error> {
    // SAFETY: pointer and length are those of one slice.
    let read = unsafe { sys::las_read_header(file.as_ptr(), file.len() as u64) };
    passes(read.number)?;
    let [max_x, min_x, max_y, min_y, max_z, min_z] = read.bounds;
    Ok(Header {
        file_source_id: narrow(read.file_source_id),
        global_encoding: narrow(read.global_encoding),
        guid: Guid {
            data_1: narrow(read.guid_1),
            data_2: narrow(read.guid_2),
            data_3: narrow(read.guid_3),
            data_4: read.guid_4.to_le_bytes(),
        },
        version: (narrow(read.major), narrow(read.minor)),
        system_identifier: part(file, 26, read.system_length),
        generating_software: part(file, 58, read.software_length),
        creation_day: narrow(read.day),
        creation_year: narrow(read.year),
        header_size: narrow(read.header_size),
        point_offset: narrow(read.point_offset),
        record_count: narrow(read.vlr_count),
        point_format: narrow(read.point_format),
        record_length: narrow(read.record_length),
        point_count: narrow(read.point_count),
        points_by_return: read.by_return.map(narrow),
        scale: read.scale.map(f64::from_bits),
        offset: read.offset.map(f64::from_bits),
        max: [max_x, max_y, max_z].map(f64::from_bits),
        min: [min_x, min_y, min_z].map(f64::from_bits),
    })
}

#[cfg(test)]
mod tests {
    use super::*;

    #[test]
    fn guid_shows_its_parts() {
        let guid = Guid {
            data_1: 0x0011_2233,
            data_2: 0x4455,
            data_3: 0x6677,
            data_4: [0x88, 0x99, 0xaa, 0xbb, 0xcc, 0xdd, 0xee, 0xff],
        };
        assert_eq!(guid.to_string(), "00112233-4455-6677-8899-aabbccddeeff");
    }
}

//! Points: their fields, their records' bytes, their coordinates.

use crate::error::{Error, passes};
use crate::header::read_header;
use crate::{narrow, sys};
use std::iter::FusedIterator;

/// The fields of a point. Those that its format lacks are 0.
#[derive(Clone, Copy, Debug, Default, PartialEq, Eq, Hash)]
pub struct Point {
    /// The stored X. [`coordinate`] and [`Header::coordinates`](crate::Header::coordinates) give coordinates.
    pub x: i32,
    /// The stored Y.
    pub y: i32,
    /// The stored Z.
    pub z: i32,
    /// The intensity.
    pub intensity: u16,
    /// The return number, 0 to 7.
    pub return_number: u8,
    /// The number of returns, 0 to 7.
    pub returns: u8,
    /// The scan direction flag.
    pub scan_direction: bool,
    /// The flag for the edge of a flight line.
    pub edge: bool,
    /// The class, 0 to 31: the classification byte [without its flags](crate#classes-and-flags).
    pub classification: u8,
    /// The scan angle rank.
    pub scan_angle: i8,
    /// The user data.
    pub user_data: u8,
    /// The point source ID.
    pub source_id: u16,
    /// The 64 bits of the GPS time, which formats 1 and 3 have. They are kept as bits so that every pattern
    /// survives; [`gps_time`](Point::gps_time) is their double.
    pub gps_time_bits: u64,
    /// Red, which formats 2 and 3 have.
    pub red: u16,
    /// Green, which formats 2 and 3 have.
    pub green: u16,
    /// Blue, which formats 2 and 3 have.
    pub blue: u16,
    /// The flag of a point that was made in another way than by the laser.
    pub synthetic: bool,
    /// The flag of a model key point.
    pub key_point: bool,
    /// The flag of a point that counts as deleted. Such a point is never released.
    pub withheld: bool,
}

impl Point {
    /// The GPS time, which formats 1 and 3 have.
    #[must_use]
    pub fn gps_time(&self) -> f64 {
        f64::from_bits(self.gps_time_bits)
    }

    /// The fields of a point that the library answered.
    fn from_sys(point: sys::las_point) -> Self {
        Point {
            x: point.x,
            y: point.y,
            z: point.z,
            intensity: point.intensity,
            return_number: point.return_number,
            returns: point.returns,
            scan_direction: point.scan_direction != 0,
            edge: point.edge != 0,
            classification: point.classification,
            scan_angle: point.scan_angle,
            user_data: point.user_data,
            source_id: point.source_id,
            gps_time_bits: point.gps_time,
            red: point.red,
            green: point.green,
            blue: point.blue,
            synthetic: point.synthetic != 0,
            key_point: point.key_point != 0,
            withheld: point.withheld != 0,
        }
    }

    /// The fields as the library takes them.
    fn to_sys(self) -> sys::las_point {
        sys::las_point {
            number: 0,
            place: 0,
            gps_time: self.gps_time_bits,
            x: self.x,
            y: self.y,
            z: self.z,
            intensity: self.intensity,
            source_id: self.source_id,
            red: self.red,
            green: self.green,
            blue: self.blue,
            return_number: self.return_number,
            returns: self.returns,
            classification: self.classification,
            user_data: self.user_data,
            scan_direction: u8::from(self.scan_direction),
            edge: u8::from(self.edge),
            scan_angle: self.scan_angle,
            synthetic: u8::from(self.synthetic),
            key_point: u8::from(self.key_point),
            withheld: u8::from(self.withheld),
        }
    }
}

/// A point of a file, and the place of its record.
#[derive(Clone, Copy, Debug, PartialEq, Eq, Hash)]
pub struct PlacedPoint {
    /// The place of the point's record: bytes from the front of the file.
    pub place: usize,
    /// The point's fields.
    pub point: Point,
}

/// The point of a file with that index, from 0.
///
/// # Errors
///
/// 1 to 10 where the file does not pass, then 11 where the index is not below the number of points.
pub fn point_at(file: &[u8], index: u64) -> Result<PlacedPoint, Error> {
    // SAFETY: pointer and length are those of one slice.
    let found = unsafe { sys::las_point_at(file.as_ptr(), file.len() as u64, index) };
    passes(found.number)?;
    Ok(PlacedPoint {
        place: narrow(found.place),
        point: Point::from_sys(found),
    })
}

/// The points of a file that passes, in order: what [`point_at`] answers for each index.
///
/// The file is checked once, and then each record is decoded.
///
/// # Errors
///
/// 1 to 10 where the file does not pass.
pub fn points(file: &[u8]) -> Result<Points<'_>, Error> {
    let header = read_header(file)?;
    Ok(Points {
        file,
        format: header.point_format,
        record_length: header.record_length,
        place: header.point_offset as usize,
        left: header.point_count as usize,
    })
}

/// The iterator that [`points`] gives.
#[derive(Clone, Debug)]
#[must_use = "an iterator does nothing until it is asked"]
pub struct Points<'a> {
    file: &'a [u8],
    format: u8,
    record_length: u16,
    place: usize,
    left: usize,
}

impl Iterator for Points<'_> {
    type Item = PlacedPoint;

    fn next(&mut self) -> Option<PlacedPoint> {
        if self.left == 0 {
            return None;
        }
        let place = self.place;
        let end = place + usize::from(self.record_length);
        // The file passes, so that its records lie in it and are of a good format and length.
        let point = decode(self.format, self.record_length, &self.file[place..end]).ok()?;
        self.place = end;
        self.left -= 1;
        Some(PlacedPoint { place, point })
    }

    fn size_hint(&self) -> (usize, Option<usize>) {
        (self.left, Some(self.left))
    }
}

impl ExactSizeIterator for Points<'_> {}

impl FusedIterator for Points<'_> {}

/// Reads the fields of a point record. Bytes beyond the format's size are extra, and not looked at.
///
/// # Errors
///
/// 12 where there are not `record_length` bytes, that length is below the format's size (20, 28, 26 and 34 for 0, 1, 2
/// and 3), or the format is above 3.
///
/// ```
/// let record = [0xFF, 0xFF, 0xFF, 0xFF, 100, 0, 0, 0, 0, 0, 0, 0, 0x2C, 1, 0x11, 2, 0xFD, 0, 7, 0];
/// let point = korbishaf::decode(0, 20, &record)?;
/// assert_eq!((point.x, point.y, point.z), (-1, 100, 0));
/// assert_eq!((point.return_number, point.returns), (1, 2));
/// assert_eq!((point.classification, point.scan_angle), (2, -3));
/// # Ok::<(), korbishaf::Error>(())
/// ```
pub fn decode(format: u8, record_length: u16, bytes: &[u8]) -> Result<Point, Error> {
    // SAFETY: pointer and length are those of one slice.
    let point =
        unsafe { sys::las_decode(format, record_length, bytes.as_ptr(), bytes.len() as u64) };
    passes(point.number)?;
    Ok(Point::from_sys(point))
}

/// Writes a point's fields to the room. The room's bytes beyond the format's size are extra, and stay; fields
/// that the format lacks are not looked at.
///
/// # Errors
///
/// 12 as for [`decode`], by the room's length, then 13 where the return number or the number of returns is above 7 or
/// the class above 31. The room is then unchanged.
///
/// ```
/// use korbishaf::{Point, encode};
///
/// let point = Point { x: -1, return_number: 1, returns: 2, classification: 2, ..Point::default() };
/// let mut room = [0xEE; 22];
/// encode(0, 22, &point, &mut room)?;
/// assert_eq!(room[..4], [0xFF; 4]);
/// assert_eq!(room[14..16], [0x11, 2]);
/// assert_eq!(room[20..], [0xEE; 2]);
///
/// // a key point of that class
/// encode(0, 22, &Point { key_point: true, ..point }, &mut room)?;
/// assert_eq!(room[15], 66);
/// let refused = encode(0, 22, &Point { classification: 66, ..point }, &mut room);
/// assert_eq!(refused.unwrap_err().number(), 13);
/// # Ok::<(), korbishaf::Error>(())
/// ```
pub fn encode(format: u8, record_length: u16, point: &Point, room: &mut [u8]) -> Result<(), Error> {
    let (start, length) = (room.as_mut_ptr(), room.len() as u64);
    // SAFETY: pointer and length are those of one slice, which is borrowed for writing.
    passes(unsafe { sys::las_encode(format, record_length, point.to_sys(), start, length) })
}

/// A coordinate: stored value times scale, rounded once, plus offset, rounded once, both to nearest with ties to
/// even. Takes any doubles.
///
/// ```
/// assert_eq!(korbishaf::coordinate(-1, 0.5, 10.0), 9.5);
/// ```
#[must_use]
pub fn coordinate(stored: i32, scale: f64, offset: f64) -> f64 {
    f64::from_bits(sys::las_coordinate(
        stored,
        scale.to_bits(),
        offset.to_bits(),
    ))
}

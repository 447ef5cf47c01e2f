//! One point: its fields, read from bytes and written to them.

use crate::bytes::{i32_at, put, u16_at, u64_at};
use crate::format::PointFormat;
use crate::refusal::Refusal;

/// The place of the byte with return number, number of returns and two flags.
pub const RETURNS_PLACE: usize = 14;
/// The place of the classification byte, which has the class and three flags.
pub const CLASS_PLACE: usize = 15;
/// The highest class, and the bits of the classification byte that hold it.
const MOST_CLASS: u8 = 0b1_1111;

/// The fields of a point. Those that a format lacks are 0.
#[derive(Debug, Clone, Copy, PartialEq, Eq, Default)]
pub struct Point {
    pub x: i32,
    pub y: i32,
    pub z: i32,
    pub intensity: u16,
    pub return_number: u8,
    pub number_of_returns: u8,
    pub scan_direction: bool,
    pub edge_of_flight_line: bool,
    /// The class, 0 to 31: the classification byte without its flags.
    pub classification: u8,
    pub scan_angle_rank: i8,
    pub user_data: u8,
    pub point_source_id: u16,
    /// The GPS time's 64 bits, so that every pattern survives.
    pub gps_time: u64,
    /// Red, green, blue.
    pub colour: [u16; 3],
    /// Whether the point was made in another way than by lidar.
    pub synthetic: bool,
    /// Whether the point is a model key point.
    pub key_point: bool,
    /// Whether the point counts as deleted; no release keeps it.
    pub withheld: bool,
}

impl Point {
    /// Reads the fields of a record that is at least as long as its format.
    pub(crate) fn read(format: PointFormat, record: &[u8]) -> Self {
        let [x, y, z] = stored_position(record);
        let returns = record[RETURNS_PLACE];
        let class_byte = record[CLASS_PLACE];
        Self {
            x,
            y,
            z,
            intensity: u16_at(record, 12),
            return_number: returns & 7,
            number_of_returns: returns >> 3 & 7,
            scan_direction: returns >> 6 & 1 == 1,
            edge_of_flight_line: returns >> 7 == 1,
            classification: class_of(class_byte),
            scan_angle_rank: i8::from_le_bytes([record[16]]),
            user_data: record[17],
            point_source_id: u16_at(record, 18),
            gps_time: format.time_place().map_or(0, |at| u64_at(record, at)),
            colour: format.colour_place().map_or([0; 3], |at| {
                std::array::from_fn(|channel| u16_at(record, at + 2 * channel))
            }),
            synthetic: class_byte >> 5 & 1 == 1,
            key_point: class_byte >> 6 & 1 == 1,
            withheld: is_withheld(class_byte),
        }
    }

    /// Writes the fields, none of them too large, over a record; bytes beyond the format's size stay.
    pub(crate) fn write(&self, format: PointFormat, record: &mut [u8]) {
        put(record, 0, &self.x.to_le_bytes());
        put(record, 4, &self.y.to_le_bytes());
        put(record, 8, &self.z.to_le_bytes());
        put(record, 12, &self.intensity.to_le_bytes());
        record[RETURNS_PLACE] = self.returns_byte();
        record[CLASS_PLACE] = self.class_byte();
        put(record, 16, &self.scan_angle_rank.to_le_bytes());
        record[17] = self.user_data;
        put(record, 18, &self.point_source_id.to_le_bytes());
        if let Some(at) = format.time_place() {
            put(record, at, &self.gps_time.to_le_bytes());
        }
        if let Some(at) = format.colour_place() {
            for (channel, value) in self.colour.iter().enumerate() {
                put(record, at + 2 * channel, &value.to_le_bytes());
            }
        }
    }

    fn returns_byte(&self) -> u8 {
        self.return_number
            | self.number_of_returns << 3
            | u8::from(self.scan_direction) << 6
            | u8::from(self.edge_of_flight_line) << 7
    }

    fn class_byte(&self) -> u8 {
        self.classification
            | u8::from(self.synthetic) << 5
            | u8::from(self.key_point) << 6
            | u8::from(self.withheld) << 7
    }

    /// Whether a field exceeds its bits, so that it would run into the fields that share its byte.
    fn has_too_large_field(&self) -> bool {
        self.return_number > 7 || self.number_of_returns > 7 || self.classification > MOST_CLASS
    }
}

/// The stored values X, Y, Z of a record.
#[inline]
pub fn stored_position(record: &[u8]) -> [i32; 3] {
    std::array::from_fn(|axis| i32_at(record, 4 * axis))
}

/// The class in a classification byte.
#[inline]
pub fn class_of(class_byte: u8) -> u8 {
    class_byte & MOST_CLASS
}

/// The withheld flag in a classification byte.
#[inline]
pub fn is_withheld(class_byte: u8) -> bool {
    class_byte >> 7 == 1
}

/// Reads one point's fields, or 12 if format, record length and bytes do not fit.
pub fn decode(format: u8, record_length: u16, bytes: &[u8]) -> Result<Point, Refusal> {
    let format = fitting_format(format, record_length, bytes.len())?;
    Ok(Point::read(format, bytes))
}

/// Writes one point's fields, or 12 as for [`decode`], then 13 if the return number or number of returns is above 7 or
/// the class above 31.
pub fn encode(
    format: u8,
    record_length: u16,
    point: &Point,
    room: &mut [u8],
) -> Result<(), Refusal> {
    let format = fitting_format(format, record_length, room.len())?;
    if point.has_too_large_field() {
        return Err(Refusal::FieldTooLarge);
    }
    point.write(format, room);
    Ok(())
}

fn fitting_format(id: u8, record_length: u16, length: usize) -> Result<PointFormat, Refusal> {
    PointFormat::from_id(id)
        .filter(|format| usize::from(record_length) >= format.size())
        .filter(|_| usize::from(record_length) == length)
        .ok_or(Refusal::WrongPointLength)
}

#[cfg(test)]
mod tests {
    use super::*;

    const P7: [u8; 20] = [
        0xFF, 0xFF, 0xFF, 0xFF, 0x64, 0, 0, 0, 0, 0, 0, 0, 0x2C, 0x01, 0x11, 0x02, 0xFD, 0, 0x07, 0,
    ];

    fn p7_point() -> Point {
        Point {
            x: -1,
            y: 100,
            z: 0,
            intensity: 300,
            return_number: 1,
            number_of_returns: 2,
            classification: 2,
            scan_angle_rank: -3,
            point_source_id: 7,
            ..Point::default()
        }
    }

    #[test]
    fn p7_decodes() {
        assert_eq!(decode(0, 20, &P7), Ok(p7_point()));
    }

    #[test]
    fn p7_encodes() {
        let mut room = [0xAA; 20];
        assert_eq!(encode(0, 20, &p7_point(), &mut room), Ok(()));
        assert_eq!(room, P7);
    }

    #[test]
    fn every_format_comes_back_from_its_bytes_and_leaves_extra_bytes() {
        for (format, size) in [(0, 20), (1, 28), (2, 26), (3, 34)] {
            let bytes: Vec<u8> = (0..size as u8 + 3)
                .map(|i| i.wrapping_mul(73) ^ 0xC5)
                .collect();
            let point = decode(format, size + 3, &bytes).unwrap();
            let mut room = vec![0xAA; bytes.len()];
            encode(format, size + 3, &point, &mut room).unwrap();
            assert_eq!(room[..size as usize], bytes[..size as usize]);
            assert_eq!(room[size as usize..], [0xAA; 3]);
        }
    }

    #[test]
    fn every_classification_byte_has_its_four_parts_and_comes_back() {
        let mut bytes = [0xAA; 34];
        for byte in 0..=255 {
            bytes[CLASS_PLACE] = byte;
            for (format, size) in [(0, 20), (1, 28), (2, 26), (3, 34)] {
                let record = &bytes[..usize::from(size)];
                let point = decode(format, size, record).unwrap();
                assert_eq!(point.classification, byte % 32);
                assert_eq!(point.synthetic, byte / 32 % 2 == 1);
                assert_eq!(point.key_point, byte / 64 % 2 == 1);
                assert_eq!(point.withheld, byte / 128 == 1);
                let mut room = vec![0x55; record.len()];
                assert_eq!(encode(format, size, &point, &mut room), Ok(()));
                assert_eq!(room, record);
            }
        }
    }

    #[test]
    fn a_key_point_on_the_ground_has_byte_66() {
        let mut bytes = P7;
        bytes[CLASS_PLACE] = 66;
        let key_point = Point {
            key_point: true,
            ..p7_point()
        };
        assert_eq!(decode(0, 20, &bytes), Ok(key_point));
    }

    #[test]
    fn lengths_and_formats_that_do_not_fit_give_12() {
        assert_eq!(decode(0, 20, &[0; 19]), Err(Refusal::WrongPointLength));
        assert_eq!(decode(0, 20, &[0; 21]), Err(Refusal::WrongPointLength));
        assert_eq!(decode(1, 27, &[0; 27]), Err(Refusal::WrongPointLength));
        assert_eq!(decode(4, 40, &[0; 40]), Err(Refusal::WrongPointLength));
    }

    #[test]
    fn too_large_fields_give_13_and_change_nothing() {
        let mut room = [0xAA; 20];
        for point in [
            Point {
                return_number: 8,
                ..p7_point()
            },
            Point {
                number_of_returns: 8,
                ..p7_point()
            },
            Point {
                classification: 32,
                ..p7_point()
            },
            Point {
                classification: 255,
                ..p7_point()
            },
        ] {
            assert_eq!(
                encode(0, 20, &point, &mut room),
                Err(Refusal::FieldTooLarge)
            );
            assert_eq!(room, [0xAA; 20]);
            assert_eq!(
                encode(0, 21, &point, &mut room),
                Err(Refusal::WrongPointLength)
            );
            assert_eq!(room, [0xAA; 20]);
        }
    }
}

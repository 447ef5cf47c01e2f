//! Where LAS 1.2 has what: the fields of the header, and sizes.

mod value;

pub use value::{Kind, Value, number};

use std::iter;

/// The size of a header without extra bytes.
pub const HEADER: usize = 227;

/// The size of a record's header.
pub const RECORD_HEADER: usize = 54;

/// The sizes of the point formats, 0 to 3.
pub const POINT_SIZES: [u16; 4] = [20, 28, 26, 34];

/// A field of the header.
#[derive(Debug)]
pub struct Field {
    pub place: usize,
    pub width: usize,
    pub kind: Kind,
    pub name: &'static str,
}

impl Field {
    /// Its bytes, in a file that is long enough.
    pub fn bytes<'a>(&self, file: &'a [u8]) -> Option<&'a [u8]> {
        file.get(self.place..)?.get(..self.width)
    }

    /// Its bits as a number, which of a double are its 64 bits.
    pub fn bits(&self, file: &[u8]) -> Option<u64> {
        number_at(file, self.place, self.width)
    }

    /// The value that these bits are.
    pub fn value(&self, bits: u64) -> Value {
        match self.kind {
            Kind::Double => Value::Double(f64::from_bits(bits)),
            _ => Value::Number(bits),
        }
    }
}

const fn field(place: usize, width: usize, kind: Kind, name: &'static str) -> Field {
    Field {
        place,
        width,
        kind,
        name,
    }
}

pub const MAJOR_VERSION: Field = field(24, 1, Kind::Number, "major version");
pub const MINOR_VERSION: Field = field(25, 1, Kind::Number, "minor version");
pub const SYSTEM_IDENTIFIER: Field = field(26, 32, Kind::Text, "system identifier");
pub const GENERATING_SOFTWARE: Field = field(58, 32, Kind::Text, "generating software");
pub const HEADER_SIZE: Field = field(94, 2, Kind::Number, "header size");
pub const POINT_OFFSET: Field = field(96, 4, Kind::Number, "point offset");
pub const RECORD_COUNT: Field = field(100, 4, Kind::Number, "number of records");
pub const POINT_FORMAT: Field = field(104, 1, Kind::Number, "point format");
pub const RECORD_LENGTH: Field = field(105, 2, Kind::Number, "record length");
pub const POINT_COUNT: Field = field(107, 4, Kind::Number, "number of points");

/// The numbers of points by return, 1 to 5.
pub const BY_RETURN: [Field; 5] = [
    field(111, 4, Kind::Number, "number of points of return 1"),
    field(115, 4, Kind::Number, "number of points of return 2"),
    field(119, 4, Kind::Number, "number of points of return 3"),
    field(123, 4, Kind::Number, "number of points of return 4"),
    field(127, 4, Kind::Number, "number of points of return 5"),
];

/// The bounds: the largest and the smallest of each axis.
pub const BOUNDS: [Field; 6] = [
    field(179, 8, Kind::Double, "max X"),
    field(187, 8, Kind::Double, "min X"),
    field(195, 8, Kind::Double, "max Y"),
    field(203, 8, Kind::Double, "min Y"),
    field(211, 8, Kind::Double, "max Z"),
    field(219, 8, Kind::Double, "min Z"),
];

/// The scales.
pub const SCALES: [Field; 3] = [
    field(131, 8, Kind::Double, "X scale"),
    field(139, 8, Kind::Double, "Y scale"),
    field(147, 8, Kind::Double, "Z scale"),
];

/// The offsets.
pub const OFFSETS: [Field; 3] = [
    field(155, 8, Kind::Double, "X offset"),
    field(163, 8, Kind::Double, "Y offset"),
    field(171, 8, Kind::Double, "Z offset"),
];

/// All other fields.
const OTHERS: [Field; 16] = [
    field(0, 4, Kind::Text, "signature"),
    field(4, 2, Kind::Number, "file source ID"),
    field(6, 2, Kind::Number, "global encoding"),
    field(8, 16, Kind::Bytes, "project GUID"),
    MAJOR_VERSION,
    MINOR_VERSION,
    SYSTEM_IDENTIFIER,
    GENERATING_SOFTWARE,
    field(90, 2, Kind::Number, "creation day"),
    field(92, 2, Kind::Number, "creation year"),
    HEADER_SIZE,
    POINT_OFFSET,
    RECORD_COUNT,
    POINT_FORMAT,
    RECORD_LENGTH,
    POINT_COUNT,
];

/// The fields that state something of the points, in the order of the header: those that mending sets right.
pub fn of_points() -> impl Iterator<Item = &'static Field> {
    iter::once(&POINT_COUNT).chain(&BY_RETURN).chain(&BOUNDS)
}

/// The field that a place is in; none behind the header's own fields.
pub fn at(place: usize) -> Option<&'static Field> {
    let doubles = SCALES.iter().chain(&OFFSETS).chain(&BOUNDS);
    let mut fields = OTHERS.iter().chain(&BY_RETURN).chain(doubles);
    fields.find(|field| (field.place..field.place + field.width).contains(&place))
}

/// The number of a width at a place of a file.
pub fn number_at(file: &[u8], place: usize, width: usize) -> Option<u64> {
    let field = file.get(place..)?.get(..width)?;
    Some(number(field))
}

#[cfg(test)]
mod tests {
    use super::*;

    #[test]
    fn the_fields_fill_the_header() {
        let mut place = 0;
        while let Some(field) = at(place) {
            assert_eq!(field.place, place, "{}", field.name);
            place += field.width;
        }
        assert_eq!(place, HEADER);
    }
}

//! The specification's sample file and sheet and others, for the tests.

use crate::bounding_box::BoundingBox;
use crate::bytes::put;
use crate::cutting::Line;
use crate::format::PointFormat;
use crate::geokey;
use crate::header::{Header, ProjectId};
use crate::point::{CLASS_PLACE, Point};
use crate::scaling::{Bounds, Scaling};
use crate::vlr::Vlr;

/// The sheet of sample P3, which keeps class 2 alone.
pub const P3_SHEET: [u8; 5] = [0x4B, 0x53, 1, 2, 2];

/// The file of sample P9: one record of payload 10, two points of format 1,
/// of which the second has class 2.
pub fn p9_file() -> Vec<u8> {
    let mut file = vec![0; 347];
    header().write(file.first_chunk_mut().expect("347 bytes hold a header"));
    record().write(&mut file[227..291]);
    point(1).write(PointFormat::F1, &mut file[291..319]);
    point(2).write(PointFormat::F1, &mut file[319..347]);
    file
}

/// The file of sample P9 with 256 points, one for each classification byte in rising order.
pub fn every_class_byte_file() -> Vec<u8> {
    let mut file = p9_file();
    let mut record = file.split_off(319);
    file.truncate(291);
    put(&mut file, 107, &256u32.to_le_bytes());
    for byte in 0..=255 {
        record[CLASS_PLACE] = byte;
        file.extend_from_slice(&record);
    }
    file
}

/// The file of sample P9 with a point of class 2 at each of these stored values X, Y, Z.
pub fn positions_file(positions: &[[i32; 3]]) -> Vec<u8> {
    let mut file = p9_file();
    let mut record = file.split_off(319);
    file.truncate(291);
    put(&mut file, 107, &(positions.len() as u32).to_le_bytes());
    for position in positions {
        put(&mut record, 0, &position.map(i32::to_le_bytes).concat());
        file.extend_from_slice(&record);
    }
    file
}

/// A file of 512 bytes whose parts lie, behind two extra header bytes, at these places:
///
/// * records "user" 7 at 229 (payload of 5 at 283), "user" 8 at 288 (payload of 3 at 342) and "other" 7 at 345, whose
///   empty payload ends at the point offset 399, each with junk in its reserved field and behind its texts;
/// * five points of format 0 with two extra bytes each at 399, 421, 443, 465 and 487, of which the first, third and
///   last have class 2 and are not withheld;
/// * three trailing bytes.
pub fn parts_file() -> Vec<u8> {
    let mut file = p9_file();
    file.truncate(227);
    file[104] = 0;
    for (at, number) in [(94, 229), (96, 399), (100, 3), (105, 22), (107, 5)] {
        put(&mut file, at, &u16::to_le_bytes(number));
    }
    file.extend([0xEE; 2]);
    file.extend(record_with_junk(b"user", 7, b"first"));
    file.extend(record_with_junk(b"user", 8, b"mid"));
    file.extend(record_with_junk(b"other", 7, b""));
    file.extend(point_with_extra_bytes(10, 1, 2, [0xE0, 0xF0]));
    file.extend(point_with_extra_bytes(99, 2, 3, [0xE1, 0xF1]));
    file.extend(point_with_extra_bytes(-30, 1, 66, [0xE2, 0xF2]));
    file.extend(point_with_extra_bytes(-99, 2, 130, [0xE3, 0xF3]));
    file.extend(point_with_extra_bytes(20, 3, 2, [0xE4, 0xF4]));
    file.extend([0xDD; 3]);
    file
}

/// A sheet that keeps class 2 and the records "other" 7 and "user" 7.
pub fn parts_sheet() -> Vec<u8> {
    let other = b"KS\x02other\0\0\0\0\0\0\0\0\0\0\0\x07\0";
    let user = b"KS\x02user\0\0\0\0\0\0\0\0\0\0\0\0\x07\0";
    [P3_SHEET.as_slice(), other, user].concat()
}

/// A box whose six values differ.
pub const SAMPLE_BOX: BoundingBox = BoundingBox {
    low: [-10, 20, -5],
    high: [-7, 25, 5],
};

/// Stored values X, Y, Z around [`SAMPLE_BOX`], each with whether they lie in it: its corners, and places on its edges,
/// on its faces, within it and one beside it.
pub fn around_sample_box() -> Vec<([i32; 3], bool)> {
    let places: [[i32; 5]; 3] = std::array::from_fn(|axis| {
        let (low, high) = (SAMPLE_BOX.low[axis], SAMPLE_BOX.high[axis]);
        [low - 1, low, low + 2, high, high + 1]
    });
    let steps = (0..125).map(|index| [index / 25, index / 5 % 5, index % 5]);
    steps
        .map(|steps| {
            let stored = std::array::from_fn(|axis| places[axis][steps[axis]]);
            (stored, steps.iter().all(|step| (1..=3).contains(step)))
        })
        .collect()
}

/// A line of a sheet for the box from `low` to `high`.
pub fn box_line(low: [i32; 3], high: [i32; 3]) -> Vec<u8> {
    let mut line = b"KS\x03".to_vec();
    for (low, high) in low.iter().zip(high) {
        line.extend(low.to_le_bytes());
        line.extend(high.to_le_bytes());
    }
    line
}

/// The cutting list of [`parts_file`] under [`parts_sheet`].
pub const PARTS_LIST: [Line; 5] = [
    line(283, 5),
    line(399, 0),
    line(399, 22),
    line(443, 22),
    line(487, 22),
];

/// A line of a cutting list.
pub const fn line(place: u64, length: u64) -> Line {
    Line { place, length }
}

/// The file of sample P9 with these GeoKey records in place of its own.
pub fn geokey_file(records: &[(u16, Vec<u8>)]) -> Vec<u8> {
    let mut file = p9_file();
    let area = geokey_records(records);
    put(&mut file, 96, &(227 + area.len() as u32).to_le_bytes());
    put(&mut file, 100, &(records.len() as u32).to_le_bytes());
    file.splice(227..291, area);
    file
}

/// GeoKey records with these record IDs and payloads, back to back.
pub fn geokey_records(records: &[(u16, Vec<u8>)]) -> Vec<u8> {
    let mut area = Vec::new();
    for (record_id, payload) in records {
        let vlr = Vlr {
            place: 0,
            user_id: geokey::USER_ID,
            record_id: *record_id,
            description: b"",
            payload,
        };
        let start = area.len();
        area.resize(start + vlr.size(), 0);
        vlr.write(&mut area[start..]);
    }
    area
}

/// The record ID and payload of a directory with these entries: key, location, count and value offset.
pub fn geokey_directory(entries: &[[u16; 4]]) -> (u16, Vec<u8>) {
    let head = [1, 1, 0, entries.len() as u16];
    let fields = head.iter().chain(entries.as_flattened());
    let payload = fields.flat_map(|field| field.to_le_bytes()).collect();
    (geokey::DIRECTORY, payload)
}

/// A record with description "text" whose reserved field is not 0 and whose texts have a space and junk behind them.
fn record_with_junk(user_id: &[u8], record_id: u16, payload: &[u8]) -> Vec<u8> {
    let vlr = Vlr {
        place: 0,
        user_id,
        record_id,
        description: b"text",
        payload,
    };
    let mut record = vec![0; vlr.size()];
    vlr.write(&mut record);
    put(&mut record, 0, &[0xBB, 0xAA]);
    record[2 + user_id.len()] = b' ';
    record[17] = b'!';
    record[26] = b' ';
    record[53] = b'!';
    record
}

/// A record of format 0 for the point x, 2x, -x, with two extra bytes.
fn point_with_extra_bytes(x: i32, returns: u8, class_byte: u8, extra: [u8; 2]) -> Vec<u8> {
    let mut record = [x, 2 * x, -x].map(i32::to_le_bytes).concat();
    record.extend([0x2C, 0x01, returns, class_byte, 0xFD, 9, 7, 0]);
    record.extend(extra);
    record
}

fn header() -> Header<'static> {
    Header {
        file_source_id: 5,
        global_encoding: 1,
        project_id: ProjectId {
            data1: 1,
            data2: 2,
            data3: 3,
            data4: *b"projects",
        },
        system_identifier: b"ALS50",
        generating_software: b"sampler",
        creation_day: 100,
        creation_year: 2008,
        header_size: 227,
        point_offset: 291,
        record_count: 1,
        format: PointFormat::F1,
        record_length: 28,
        point_count: 2,
        points_by_return: [2, 0, 0, 0, 0],
        scaling: Scaling {
            scale: [0.5; 3],
            offset: [10.0; 3],
        },
        bounds: Bounds {
            max: [9.5; 3],
            min: [9.0; 3],
        },
    }
}

fn record() -> Vlr<'static> {
    Vlr {
        place: 227,
        user_id: b"user",
        record_id: 7,
        description: b"",
        payload: b"0123456789",
    }
}

fn point(class: u8) -> Point {
    Point {
        x: -1,
        y: -2,
        z: -1,
        return_number: 1,
        number_of_returns: 1,
        classification: class,
        gps_time: 0x0123_4567_89AB_CDEF,
        ..Point::default()
    }
}

//! `las_plain`, its answers turned into the same plain numbers.

mod lists;

use las_plain::{GeoValue, LasFile, Refusal};

pub use lists::{cutting_list, release_by_list};

use crate::answers::{
    ClassLine, GeoKey, GeoKeyRead, Header, Kept, Mended, Point, Record, Released,
};

/// The bits that a coordinate that is not a number has in the interface.
const NAN_BITS: u64 = 0x7FF8_0000_0000_0000;

pub fn check_file(file: &[u8]) -> u64 {
    number(las_plain::check_file(file))
}

pub fn check_sheet(sheet: &[u8]) -> u64 {
    number(las_plain::check_sheet(sheet))
}

pub fn read_header(file: &[u8]) -> Header {
    las_plain::read_header(file).map_or_else(
        |refusal| Header {
            number: refusal.number(),
            ..Header::default()
        },
        |header| header_answer(&header),
    )
}

pub fn vlr_step(file: &[u8], index: u64, position: u64) -> Record {
    match LasFile::open(file).and_then(|file| file.vlr_at(index, position)) {
        Err(refusal) => Record {
            number: refusal.number(),
            ..Record::default()
        },
        Ok(vlr) => Record {
            number: 0,
            user_place: vlr.user_place() as u64,
            user_length: vlr.user_id.len() as u64,
            record_id: vlr.record_id.into(),
            description_place: vlr.description_place() as u64,
            description_length: vlr.description.len() as u64,
            payload_place: vlr.payload_place() as u64,
            payload_length: vlr.payload.len() as u64,
            next_index: index + 1,
            next_position: vlr.end() as u64,
        },
    }
}

pub fn point_at(file: &[u8], index: u64) -> Point {
    point_answer(LasFile::open(file).and_then(|file| file.point_at(index)))
}

pub fn decode(format: u8, record_length: u16, bytes: &[u8]) -> Point {
    point_answer(las_plain::decode(format, record_length, bytes).map(|point| (0, point)))
}

pub fn encode(format: u8, record_length: u16, point: &Point, room: &mut [u8]) -> u64 {
    let point = las_plain::Point {
        x: point.x,
        y: point.y,
        z: point.z,
        intensity: point.intensity,
        return_number: point.return_number,
        number_of_returns: point.returns,
        scan_direction: point.scan_direction != 0,
        edge_of_flight_line: point.edge != 0,
        classification: point.classification,
        scan_angle_rank: point.scan_angle,
        user_data: point.user_data,
        point_source_id: point.source_id,
        gps_time: point.gps_time,
        colour: [point.red, point.green, point.blue],
        synthetic: point.synthetic != 0,
        key_point: point.key_point != 0,
        withheld: point.withheld != 0,
    };
    number(las_plain::encode(format, record_length, &point, room))
}

pub fn coordinate(stored: i32, scale: u64, offset: u64) -> u64 {
    let coordinate = las_plain::coordinate(stored, f64::from_bits(scale), f64::from_bits(offset));
    if coordinate.is_nan() {
        NAN_BITS
    } else {
        coordinate.to_bits()
    }
}

pub fn class_kept(sheet: &[u8], class: u8) -> Kept {
    kept_answer(las_plain::class_kept(sheet, class))
}

pub fn class_test(sheet: &[u8], class: u8) -> ClassLine {
    match las_plain::class_test(sheet, class) {
        Ok(line) => ClassLine {
            number: 0,
            kept: line.kept.into(),
            lines: line.lines,
        },
        Err(refusal) => ClassLine {
            number: refusal.number(),
            ..ClassLine::default()
        },
    }
}

pub fn record_kept(sheet: &[u8], user: &[u8], record_id: u16) -> Kept {
    kept_answer(las_plain::record_kept(sheet, user, record_id))
}

pub fn geokey_find(file: &[u8], key: u16) -> GeoKey {
    geokey_answer(LasFile::open(file).and_then(|file| file.geokey(key)))
}

pub fn geokey_halve(file: &[u8], key: u16) -> GeoKeyRead {
    let lookup = las_plain::find_by_halving(file, key);
    let answer = geokey_answer(lookup.value);
    GeoKeyRead {
        number: answer.number,
        location: answer.location,
        value: answer.value,
        length: answer.length,
        reads: lookup.reads,
    }
}

pub fn release(file: &[u8], sheet: &[u8], out: &mut [u8]) -> Released {
    released_answer(las_plain::release(file, sheet, out))
}

pub fn mend(file: &mut [u8]) -> Mended {
    match las_plain::mend(file) {
        Ok(marks) => Mended {
            number: 0,
            marks: marks.map(u64::from),
        },
        Err(refusal) => Mended {
            number: refusal.number(),
            ..Mended::default()
        },
    }
}

fn number(result: Result<(), Refusal>) -> u64 {
    result.map_or_else(Refusal::number, |()| 0)
}

fn released_answer(result: Result<las_plain::Released, Refusal>) -> Released {
    match result {
        Ok(released) => Released {
            number: 0,
            length: released.length,
            points: released.points,
            records: released.records,
        },
        Err(refusal) => Released {
            number: refusal.number(),
            length: match refusal {
                Refusal::OutputTooShort { needed } => needed,
                _ => 0,
            },
            ..Released::default()
        },
    }
}

fn geokey_answer(result: Result<GeoValue, Refusal>) -> GeoKey {
    let (number, location, value, length) = match result {
        Err(refusal) => (refusal.number(), 0, 0, 0),
        Ok(GeoValue::Short(value)) => (0, 0, value.into(), 0),
        Ok(GeoValue::Double(bits)) => (0, 34736, bits, 0),
        Ok(GeoValue::Text { place, length }) => (0, 34737, place as u64, length.into()),
    };
    GeoKey {
        number,
        location,
        value,
        length,
    }
}

fn kept_answer(result: Result<bool, Refusal>) -> Kept {
    match result {
        Ok(kept) => Kept {
            number: 0,
            kept: kept.into(),
        },
        Err(refusal) => Kept {
            number: refusal.number(),
            kept: 0,
        },
    }
}

fn point_answer(result: Result<(usize, las_plain::Point), Refusal>) -> Point {
    match result {
        Err(refusal) => Point {
            number: refusal.number(),
            ..Point::default()
        },
        Ok((place, point)) => Point {
            number: 0,
            place: place as u64,
            gps_time: point.gps_time,
            x: point.x,
            y: point.y,
            z: point.z,
            intensity: point.intensity,
            source_id: point.point_source_id,
            red: point.colour[0],
            green: point.colour[1],
            blue: point.colour[2],
            return_number: point.return_number,
            returns: point.number_of_returns,
            classification: point.classification,
            user_data: point.user_data,
            scan_direction: point.scan_direction.into(),
            edge: point.edge_of_flight_line.into(),
            scan_angle: point.scan_angle_rank,
            synthetic: point.synthetic.into(),
            key_point: point.key_point.into(),
            withheld: point.withheld.into(),
        },
    }
}

fn header_answer(header: &las_plain::Header<'_>) -> Header {
    let project = &header.project_id;
    let (major, minor) = las_plain::Header::VERSION;
    let (max, min) = (header.bounds.max, header.bounds.min);
    Header {
        number: 0,
        file_source_id: header.file_source_id.into(),
        global_encoding: header.global_encoding.into(),
        guid: [
            project.data1.into(),
            project.data2.into(),
            project.data3.into(),
            u64::from_le_bytes(project.data4),
        ],
        version: [major.into(), minor.into()],
        system_length: header.system_identifier.len() as u64,
        software_length: header.generating_software.len() as u64,
        day: header.creation_day.into(),
        year: header.creation_year.into(),
        header_size: header.header_size.into(),
        point_offset: header.point_offset.into(),
        vlr_count: header.record_count.into(),
        point_format: header.format.id().into(),
        record_length: header.record_length.into(),
        point_count: header.point_count.into(),
        by_return: header.points_by_return.map(u64::from),
        scale: header.scaling.scale.map(f64::to_bits),
        offset: header.scaling.offset.map(f64::to_bits),
        bounds: [max[0], min[0], max[1], min[1], max[2], min[2]].map(f64::to_bits),
    }
}

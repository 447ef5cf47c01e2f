//! The proved library, called through its C interface. Nothing else here calls it.

mod lists;

use korbishaf::sys;

pub use lists::{cutting_list, release_by_list};

use crate::answers::{
    ClassLine, GeoKey, GeoKeyRead, Header, Kept, Mended, Point, Record, Released,
};
use crate::lent::Lent;

// SAFETY, for every call below: each pointer comes with the length of the
// buffer that `Lent` owns behind it, and no two arguments share a buffer.

/// The last change request that the library has.
pub fn level() -> u64 {
    sys::las_level()
}

pub fn check_file(file: &mut Lent) -> u64 {
    // SAFETY: see above.
    unsafe { sys::las_check_file(file.pointer(), file.length()) }
}

pub fn check_sheet(sheet: &mut Lent) -> u64 {
    // SAFETY: see above.
    unsafe { sys::las_check_sheet(sheet.pointer(), sheet.length()) }
}

pub fn read_header(file: &mut Lent) -> Header {
    // SAFETY: see above.
    let answer = unsafe { sys::las_read_header(file.pointer(), file.length()) };
    Header {
        number: answer.number,
        file_source_id: answer.file_source_id,
        global_encoding: answer.global_encoding,
        guid: [answer.guid_1, answer.guid_2, answer.guid_3, answer.guid_4],
        version: [answer.major, answer.minor],
        system_length: answer.system_length,
        software_length: answer.software_length,
        day: answer.day,
        year: answer.year,
        header_size: answer.header_size,
        point_offset: answer.point_offset,
        vlr_count: answer.vlr_count,
        point_format: answer.point_format,
        record_length: answer.record_length,
        point_count: answer.point_count,
        by_return: answer.by_return,
        scale: answer.scale,
        offset: answer.offset,
        bounds: answer.bounds,
    }
}

pub fn vlr_step(file: &mut Lent, index: u64, position: u64) -> Record {
    // SAFETY: see above.
    let answer = unsafe { sys::las_vlr_step(file.pointer(), file.length(), index, position) };
    Record {
        number: answer.number,
        user_place: answer.user_place,
        user_length: answer.user_length,
        record_id: answer.record_id,
        description_place: answer.description_place,
        description_length: answer.description_length,
        payload_place: answer.payload_place,
        payload_length: answer.payload_length,
        next_index: answer.next_index,
        next_position: answer.next_position,
    }
}

pub fn point_at(file: &mut Lent, index: u64) -> Point {
    // SAFETY: see above.
    point_answer(unsafe { sys::las_point_at(file.pointer(), file.length(), index) })
}

pub fn decode(format: u8, record_length: u16, bytes: &mut Lent) -> Point {
    let (pointer, length) = (bytes.pointer(), bytes.length());
    // SAFETY: see above.
    point_answer(unsafe { sys::las_decode(format, record_length, pointer, length) })
}

pub fn encode(format: u8, record_length: u16, point: &Point, room: &mut Lent) -> u64 {
    let (pointer, length) = (room.pointer(), room.length());
    // SAFETY: see above.
    unsafe {
        sys::las_encode(
            format,
            record_length,
            point_argument(point),
            pointer,
            length,
        )
    }
}

pub fn coordinate(stored: i32, scale: u64, offset: u64) -> u64 {
    sys::las_coordinate(stored, scale, offset)
}

pub fn class_kept(sheet: &mut Lent, class: u8) -> Kept {
    // SAFETY: see above.
    kept_answer(unsafe { sys::las_class_kept(sheet.pointer(), sheet.length(), class) })
}

pub fn class_test(sheet: &mut Lent, class: u8) -> ClassLine {
    // SAFETY: see above.
    let answer = unsafe { sys::las_class_test(sheet.pointer(), sheet.length(), class) };
    ClassLine {
        number: answer.number,
        kept: answer.kept,
        lines: answer.lines,
    }
}

pub fn record_kept(sheet: &mut Lent, user: &mut Lent, record_id: u16) -> Kept {
    let (sheet, sheet_length) = (sheet.pointer(), sheet.length());
    let (user, user_length) = (user.pointer(), user.length());
    // SAFETY: see above.
    kept_answer(unsafe { sys::las_record_kept(sheet, sheet_length, user, user_length, record_id) })
}

pub fn geokey_find(file: &mut Lent, key: u16) -> GeoKey {
    // SAFETY: see above.
    let answer = unsafe { sys::las_geokey_find(file.pointer(), file.length(), key) };
    GeoKey {
        number: answer.number,
        location: answer.location,
        value: answer.value,
        length: answer.length,
    }
}

pub fn geokey_halve(file: &mut Lent, key: u16) -> GeoKeyRead {
    // SAFETY: see above.
    let answer = unsafe { sys::las_geokey_halve(file.pointer(), file.length(), key) };
    GeoKeyRead {
        number: answer.number,
        location: answer.location,
        value: answer.value,
        length: answer.length,
        reads: answer.reads,
    }
}

pub fn release(file: &mut Lent, sheet: &mut Lent, out: &mut Lent) -> Released {
    let (file, file_length) = (file.pointer(), file.length());
    let (sheet, sheet_length) = (sheet.pointer(), sheet.length());
    let (out, out_length) = (out.pointer(), out.length());
    // SAFETY: see above.
    released_answer(unsafe {
        sys::las_release(file, file_length, sheet, sheet_length, out, out_length)
    })
}

pub fn mend(file: &mut Lent) -> Mended {
    // SAFETY: see above.
    let answer = unsafe { sys::las_mend(file.pointer(), file.length()) };
    Mended {
        number: answer.number,
        marks: answer.marks,
    }
}

/// The answers for empty slices that come as null pointers: check of the
/// file, check of the sheet, class test, decode, encode, release, mend,
/// cutting list, release by a list, both GeoKey lookups.
pub fn on_null_pointers() -> [u64; 11] {
    let null = std::ptr::null();
    let null_mut = std::ptr::null_mut();
    let no_list = std::ptr::null_mut();
    let point = point_argument(&Point::default());
    // SAFETY: where the length is 0 the pointer is not looked at.
    unsafe {
        [
            sys::las_check_file(null, 0),
            sys::las_check_sheet(null, 0),
            sys::las_class_test(null, 0, 2).number,
            sys::las_decode(0, 20, null, 0).number,
            sys::las_encode(0, 20, point, null_mut, 0),
            sys::las_release(null, 0, null, 0, null_mut, 0).number,
            sys::las_mend(null_mut, 0).number,
            sys::las_cutting_list(null, 0, null, 0, no_list, 0).number,
            sys::las_release_by_list(null, 0, null, 0, null_mut, 0, no_list, 0).number,
            sys::las_geokey_find(null, 0, 1024).number,
            sys::las_geokey_halve(null, 0, 1024).number,
        ]
    }
}

fn released_answer(answer: sys::las_released) -> Released {
    Released {
        number: answer.number,
        length: answer.length,
        points: answer.points,
        records: answer.records,
    }
}

fn kept_answer(answer: sys::las_kept) -> Kept {
    Kept {
        number: answer.number,
        kept: answer.kept,
    }
}

fn point_answer(answer: sys::las_point) -> Point {
    Point {
        number: answer.number,
        place: answer.place,
        gps_time: answer.gps_time,
        x: answer.x,
        y: answer.y,
        z: answer.z,
        intensity: answer.intensity,
        source_id: answer.source_id,
        red: answer.red,
        green: answer.green,
        blue: answer.blue,
        return_number: answer.return_number,
        returns: answer.returns,
        classification: answer.classification,
        user_data: answer.user_data,
        scan_direction: answer.scan_direction,
        edge: answer.edge,
        scan_angle: answer.scan_angle,
        synthetic: answer.synthetic,
        key_point: answer.key_point,
        withheld: answer.withheld,
    }
}

fn point_argument(point: &Point) -> sys::las_point {
    sys::las_point {
        number: point.number,
        place: point.place,
        gps_time: point.gps_time,
        x: point.x,
        y: point.y,
        z: point.z,
        intensity: point.intensity,
        source_id: point.source_id,
        red: point.red,
        green: point.green,
        blue: point.blue,
        return_number: point.return_number,
        returns: point.returns,
        classification: point.classification,
        user_data: point.user_data,
        scan_direction: point.scan_direction,
        edge: point.edge,
        scan_angle: point.scan_angle,
        synthetic: point.synthetic,
        key_point: point.key_point,
        withheld: point.withheld,
    }
}

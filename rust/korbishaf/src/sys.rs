//! The static library's own structs and functions, as `include/korbishaf.h` has them.
//!
//! The rules of that header hold: a run of bytes passes as a pointer and then its length, and where the length
//! is 0 the pointer is not looked at; on a refusal every field but `number` is 0, and nothing lent is changed
//! (30 also gives the needed length, and 42 to 46 of [`las_geokey_halve`] the entries read); doubles pass as
//! their 64 bits; flags are bytes, 0 for no.
//!
//! # Safety
//!
//! A function that takes a pointer asks that it points to as many bytes, or lines, as the length after it says (a
//! length of 0 asks nothing), all of them initialised, and that those behind a `*mut` pointer overlap no other
//! argument. A pointer to lines has to be aligned as a [`las_line`], which is to 8 bytes. Nothing else is asked: every
//! function takes any bytes and any numbers, and returns.

#![allow(non_camel_case_types)]

/// What a release answers.
#[repr(C)]
#[derive(Clone, Copy, Debug, Default, PartialEq, Eq)]
pub struct las_released {
    /// 0, or why there is no release.
    pub number: u64,
    /// The released file's length; with 30 the length that it needs.
    pub length: u64,
    /// The number of kept points.
    pub points: u64,
    /// The number of kept variable length records.
    pub records: u64,
}

/// A line of a cutting list: a part of the file.
#[repr(C)]
#[derive(Clone, Copy, Debug, Default, PartialEq, Eq)]
pub struct las_line {
    /// Where it begins.
    pub place: u64,
    /// How many bytes it has.
    pub length: u64,
}

/// What a cutting list answers.
#[repr(C)]
#[derive(Clone, Copy, Debug, Default, PartialEq, Eq)]
pub struct las_listed {
    /// 0, or why there is no list.
    pub number: u64,
    /// The number of lines: kept records and kept points together.
    pub lines: u64,
}

/// One variable length record: its places in the file and cut lengths, and where the next step goes.
#[repr(C)]
#[derive(Clone, Copy, Debug, Default, PartialEq, Eq)]
pub struct las_record {
    /// 0, or why there is no record.
    pub number: u64,
    /// The place of the user ID.
    pub user_place: u64,
    /// The cut length of the user ID.
    pub user_length: u64,
    /// The record ID.
    pub record_id: u64,
    /// The place of the description.
    pub description_place: u64,
    /// The cut length of the description.
    pub description_length: u64,
    /// The place of the payload.
    pub payload_place: u64,
    /// The length of the payload.
    pub payload_length: u64,
    /// The index plus 1.
    pub next_index: u64,
    /// The place just after the record.
    pub next_position: u64,
}

/// The fields of one point record. Those that its format lacks are 0.
#[repr(C)]
#[derive(Clone, Copy, Debug, Default, PartialEq, Eq)]
pub struct las_point {
    /// 0, or why there is no point. Not looked at when encoding.
    pub number: u64,
    /// The place of the record in the file. Not looked at when encoding.
    pub place: u64,
    /// The 64 bits of the GPS time.
    pub gps_time: u64,
    /// The stored X.
    pub x: i32,
    /// The stored Y.
    pub y: i32,
    /// The stored Z.
    pub z: i32,
    /// The intensity.
    pub intensity: u16,
    /// The point source ID.
    pub source_id: u16,
    /// Red.
    pub red: u16,
    /// Green.
    pub green: u16,
    /// Blue.
    pub blue: u16,
    /// The return number, 0 to 7.
    pub return_number: u8,
    /// The number of returns, 0 to 7.
    pub returns: u8,
    /// The class, 0 to 31.
    pub classification: u8,
    /// The user data.
    pub user_data: u8,
    /// The scan direction, a flag.
    pub scan_direction: u8,
    /// The edge of a flight line, a flag.
    pub edge: u8,
    /// The scan angle rank.
    pub scan_angle: i8,
    /// That the point is synthetic, a flag.
    pub synthetic: u8,
    /// That the point is a key point, a flag.
    pub key_point: u8,
    /// That the point is withheld, a flag.
    pub withheld: u8,
}

/// The value of one GeoKey.
#[repr(C)]
#[derive(Clone, Copy, Debug, Default, PartialEq, Eq)]
pub struct las_geokey {
    /// 0, or why there is no value.
    pub number: u64,
    /// 0, 34736 or 34737.
    pub location: u64,
    /// For location 0 the value, for 34736 the double's 64 bits, for 34737 the text's place in the file.
    pub value: u64,
    /// For 34737 the text's length, otherwise 0.
    pub length: u64,
}

/// The value of one GeoKey, found by halving, and how many entries of the key directory were read for it.
#[repr(C)]
#[derive(Clone, Copy, Debug, Default, PartialEq, Eq)]
pub struct las_geokey_read {
    /// 0, or why there is no value.
    pub number: u64,
    /// As in [`las_geokey`].
    pub location: u64,
    /// As in [`las_geokey`].
    pub value: u64,
    /// As in [`las_geokey`].
    pub length: u64,
    /// 0 to 13; beside 42 to 46 too, and 0 beside any other refusal.
    pub reads: u64,
}

/// Whether a sheet keeps something.
#[repr(C)]
#[derive(Clone, Copy, Debug, Default, PartialEq, Eq)]
pub struct las_kept {
    /// 0, or why the sheet does not pass.
    pub number: u64,
    /// 1 for kept, otherwise 0.
    pub kept: u64,
}

/// Whether a line of a sheet holds a class, and how many lines were looked at for it.
#[repr(C)]
#[derive(Clone, Copy, Debug, Default, PartialEq, Eq)]
pub struct las_class_line {
    /// 0, or why the sheet does not pass.
    pub number: u64,
    /// 1 for kept, otherwise 0.
    pub kept: u64,
    /// The lines up to and with the first that holds the class, or all if none does.
    pub lines: u64,
}

/// What a mending answers.
#[repr(C)]
#[derive(Clone, Copy, Debug, Default, PartialEq, Eq)]
pub struct las_mended {
    /// 0, or why the file is not mended.
    pub number: u64,
    /// 1 for each field whose bytes changed, otherwise 0: number of points, points by return 1 to 5, max X, min X,
    /// max Y, min Y, max Z, min Z.
    pub marks: [u64; 12],
}

/// The fields of a header, as the file states them.
#[repr(C)]
#[derive(Clone, Copy, Debug, Default, PartialEq, Eq)]
pub struct las_header {
    /// 0, or why the file does not pass.
    pub number: u64,
    /// The file source ID.
    pub file_source_id: u64,
    /// The global encoding.
    pub global_encoding: u64,
    /// The project GUID's first part, bytes 8 to 11.
    pub guid_1: u64,
    /// The project GUID's second part, bytes 12 and 13.
    pub guid_2: u64,
    /// The project GUID's third part, bytes 14 and 15.
    pub guid_3: u64,
    /// The project GUID's last part, bytes 16 to 23, lowest first.
    pub guid_4: u64,
    /// The major version.
    pub major: u64,
    /// The minor version.
    pub minor: u64,
    /// The cut length of the system identifier, which is at 26.
    pub system_length: u64,
    /// The cut length of the generating software, which is at 58.
    pub software_length: u64,
    /// The creation day.
    pub day: u64,
    /// The creation year.
    pub year: u64,
    /// The header size.
    pub header_size: u64,
    /// The offset to the points.
    pub point_offset: u64,
    /// The number of variable length records.
    pub vlr_count: u64,
    /// The point format.
    pub point_format: u64,
    /// The length of a point record.
    pub record_length: u64,
    /// The number of points.
    pub point_count: u64,
    /// The numbers of points by return, 1 to 5.
    pub by_return: [u64; 5],
    /// The bits of the X, Y and Z scales.
    pub scale: [u64; 3],
    /// The bits of the X, Y and Z offsets.
    pub offset: [u64; 3],
    /// The bits of max X, min X, max Y, min Y, max Z, min Z.
    pub bounds: [u64; 6],
}

unsafe extern "C" {
    /// The number of the last change request that is in: 0 for the base, 1 with `las_mend`, 2 where a text's cut has
    /// no spaces at its end, 3 where a class has no flags in it and withheld points are never released, 4 with
    /// `las_class_test`, 5 with `las_cutting_list` and `las_release_by_list`, 6 with `las_geokey_halve`, 7 where a
    /// sheet may have boxes.
    pub safe fn las_level() -> u64;

    /// 0 if the file passes, otherwise 1 to 10.
    pub fn las_check_file(file: *const u8, file_length: u64) -> u64;

    /// 0 if the keep sheet passes, otherwise 20 to 24.
    pub fn las_check_sheet(sheet: *const u8, sheet_length: u64) -> u64;

    /// The header's fields. Numbers: 1 to 10.
    pub fn las_read_header(file: *const u8, file_length: u64) -> las_header;

    /// The record at a position, and the next index and position. Numbers: 1 to 10, 18.
    pub fn las_vlr_step(file: *const u8, file_length: u64, index: u64, position: u64)
    -> las_record;

    /// One point of a file. Numbers: 1 to 10, 11.
    pub fn las_point_at(file: *const u8, file_length: u64, index: u64) -> las_point;

    /// The fields of one point record; the place is 0. Numbers: 12.
    pub fn las_decode(
        format: u8,
        record_length: u16,
        bytes: *const u8,
        bytes_length: u64,
    ) -> las_point;

    /// Writes a point's fields to the room and gives 0, or a number: 12, 13.
    pub fn las_encode(
        format: u8,
        record_length: u16,
        point: las_point,
        room: *mut u8,
        room_length: u64,
    ) -> u64;

    /// The bits of a coordinate, from the bits of its scale and offset.
    pub safe fn las_coordinate(stored: i32, scale: u64, offset: u64) -> u64;

    /// Whether a line of the sheet contains that class, which has no flags in it; boxes are not looked at. Numbers: 20
    /// to 24.
    pub fn las_class_kept(sheet: *const u8, sheet_length: u64, classification: u8) -> las_kept;

    /// Whether a line of the sheet holds that class, and how many lines were looked at for it, of any kind. Numbers: 20
    /// to 24.
    pub fn las_class_test(
        sheet: *const u8,
        sheet_length: u64,
        classification: u8,
    ) -> las_class_line;

    /// Whether the sheet keeps records of that user ID and record ID. Numbers: 20 to 24.
    pub fn las_record_kept(
        sheet: *const u8,
        sheet_length: u64,
        user: *const u8,
        user_length: u64,
        record_id: u16,
    ) -> las_kept;

    /// The value of a GeoKey. Numbers: 1 to 10, 40 to 46.
    pub fn las_geokey_find(file: *const u8, file_length: u64, key: u16) -> las_geokey;

    /// The value of a GeoKey by halving, and the entries read for it. Numbers: 1 to 10, 40 to 46.
    pub fn las_geokey_halve(file: *const u8, file_length: u64, key: u16) -> las_geokey_read;

    /// Writes what the sheet keeps of the file to `out`, and zeros behind it. Numbers: 1 to 10, 20 to 24, 30.
    pub fn las_release(
        file: *const u8,
        file_length: u64,
        sheet: *const u8,
        sheet_length: u64,
        out: *mut u8,
        out_length: u64,
    ) -> las_released;

    /// Fills a list with the places and lengths of what a release takes of the file: kept payloads, and then kept
    /// points. `list_length` counts lines. Numbers: 1 to 10, 20 to 24, 31.
    pub fn las_cutting_list(
        file: *const u8,
        file_length: u64,
        sheet: *const u8,
        sheet_length: u64,
        list: *mut las_line,
        list_length: u64,
    ) -> las_listed;

    /// Fills the list, and writes the release from it. Numbers: 1 to 10, 20 to 24, 31, 30.
    pub fn las_release_by_list(
        file: *const u8,
        file_length: u64,
        sheet: *const u8,
        sheet_length: u64,
        out: *mut u8,
        out_length: u64,
        list: *mut las_line,
        list_length: u64,
    ) -> las_released;

    /// Mends number of points, points by return and bounds in the file. Numbers: 1 to 8, 10.
    pub fn las_mend(file: *mut u8, file_length: u64) -> las_mended;
}

#[cfg(test)]
mod tests {
    use super::*;
    use std::mem::{align_of, offset_of, size_of};

    /// Asserts that the fields lie at these places, in this order.
    macro_rules! lie_at {
        ($name:ident: $($field:ident $at:literal),* $(,)?) => {
            $(assert_eq!(offset_of!($name, $field), $at, concat!(stringify!($name), ".", stringify!($field)));)*
        };
    }

    #[test]
    fn sizes() {
        assert_eq!(size_of::<las_released>(), 32);
        assert_eq!(size_of::<las_line>(), 16);
        assert_eq!(size_of::<las_listed>(), 16);
        assert_eq!(size_of::<las_record>(), 80);
        assert_eq!(size_of::<las_point>(), 56);
        assert_eq!(size_of::<las_geokey>(), 32);
        assert_eq!(size_of::<las_geokey_read>(), 40);
        assert_eq!(size_of::<las_kept>(), 16);
        assert_eq!(size_of::<las_class_line>(), 24);
        assert_eq!(size_of::<las_header>(), 288);
        assert_eq!(size_of::<las_mended>(), 104);
    }

    #[test]
    fn alignments() {
        assert_eq!(align_of::<las_released>(), 8);
        assert_eq!(align_of::<las_line>(), 8);
        assert_eq!(align_of::<las_listed>(), 8);
        assert_eq!(align_of::<las_record>(), 8);
        assert_eq!(align_of::<las_point>(), 8);
        assert_eq!(align_of::<las_geokey>(), 8);
        assert_eq!(align_of::<las_geokey_read>(), 8);
        assert_eq!(align_of::<las_kept>(), 8);
        assert_eq!(align_of::<las_class_line>(), 8);
        assert_eq!(align_of::<las_header>(), 8);
        assert_eq!(align_of::<las_mended>(), 8);
    }

    #[test]
    fn places() {
        lie_at!(las_released: number 0, length 8, points 16, records 24);
        lie_at!(las_line: place 0, length 8);
        lie_at!(las_listed: number 0, lines 8);
        lie_at!(las_record: number 0, user_place 8, user_length 16, record_id 24, description_place 32,
            description_length 40, payload_place 48, payload_length 56, next_index 64, next_position 72);
        lie_at!(las_point: number 0, place 8, gps_time 16, x 24, y 28, z 32, intensity 36, source_id 38, red 40,
            green 42, blue 44, return_number 46, returns 47, classification 48, user_data 49,
            scan_direction 50, edge 51, scan_angle 52, synthetic 53, key_point 54, withheld 55);
        lie_at!(las_geokey: number 0, location 8, value 16, length 24);
        lie_at!(las_geokey_read: number 0, location 8, value 16, length 24, reads 32);
        lie_at!(las_kept: number 0, kept 8);
        lie_at!(las_class_line: number 0, kept 8, lines 16);
        lie_at!(las_mended: number 0, marks 8);
        lie_at!(las_header: number 0, file_source_id 8, global_encoding 16, guid_1 24, guid_2 32, guid_3 40,
            guid_4 48, major 56, minor 64, system_length 72, software_length 80, day 88, year 96,
            header_size 104, point_offset 112, vlr_count 120, point_format 128, record_length 136,
            point_count 144, by_return 152, scale 192, offset 216, bounds 240);
    }
}

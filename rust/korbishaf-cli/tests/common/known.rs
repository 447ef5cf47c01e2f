//! Files that a test knows every byte of.

#![allow(dead_code, reason = "not every test uses everything")]

use super::common::{Ran, Scratch};
use compare::damage::POINT_COUNT;
use compare::spec::{FileSpec, RecordSpec, padded};

/// A sheet that keeps class 2 and one record.
pub const SHEET: &str = "class 2 # ground\nrecord yard 7\n";

pub fn point([x, y, z]: [i32; 3], return_number: u8, class: u8) -> Vec<u8> {
    let mut point = [x, y, z].map(i32::to_le_bytes).concat();
    point.extend([0x2C, 1, return_number, class, 0, 9, 7, 1]);
    point
}

pub fn record(user_id: &[u8], record_id: u16, payload: usize) -> RecordSpec {
    RecordSpec {
        reserved: [0; 2],
        user: padded(user_id),
        record_id,
        description: padded(b"outline"),
        payload: vec![0xEE; payload],
    }
}

/// A file of 331 bytes that a release under [`SHEET`] gives: a record of 64 bytes at 227, two points of 20 at 291.
pub fn clean() -> FileSpec {
    FileSpec {
        system: padded(b"scanner"),
        software: padded(b"cutter 1.0"),
        scale: [0.5; 3],
        offset: [10.0; 3],
        old_by_return: [1, 1, 0, 0, 0],
        old_bounds: [13.0, 11.0, 12.0, 8.0, 10.0, 7.0].map(f64::to_bits),
        records: vec![record(b"yard", 7, 10)],
        points: vec![point([2, 4, -6], 1, 2), point([6, -4, 0], 2, 2)],
        ..FileSpec::bare(0)
    }
}

/// The clean file with a header that lies about its points in five fields.
pub fn lying() -> Vec<u8> {
    let mut spec = clean();
    spec.old_by_return = [1, 1, 7, 0, u32::MAX];
    spec.old_bounds[0] = f64::NAN.to_bits();
    spec.old_bounds[3] = f64::NEG_INFINITY.to_bits();
    POINT_COUNT.with(&spec.bytes(), 3)
}

/// These fields, as `mend` shows them.
pub const LYING: &str = "                                    before  after
  number of points                       3      2
  number of points of return 3           7      0
  number of points of return 5  4294967295      0
  max X                                NaN   13.0
  min Y                               -inf    8.0
";

/// What is said of the clean file with a change.
pub fn said_of(change: impl FnOnce(&mut FileSpec)) -> Ran {
    let mut spec = clean();
    change(&mut spec);
    let scratch = Scratch::new();
    scratch.write("a.las", spec.bytes());
    scratch.write("sheet.txt", SHEET);
    scratch.says("verify a.las sheet.txt")
}

/// A folder with a file of each sort, and the lines of the first three.
pub fn shelf() -> (Scratch, &'static str) {
    let scratch = Scratch::new();
    let mut file = clean();
    scratch.write("good.las", file.bytes());
    file.trailing = vec![7; 40];
    scratch.write("leak.las", file.bytes());
    scratch.write("cut.las", &file.bytes()[..290]);
    scratch.write("sheet.txt", SHEET);
    let lines = "good.las: verified (331 bytes, 2 points, 1 record)
leak.las: not verified: byte 331, behind the last counted point: 07, a release has 00
  byte 331: 40 bytes behind the last counted point, not all zero: as many as 2 whole point records
cut.las: not verified: refused 7: point offset below the header size or above the file's length (offset 291, length 290)
";
    (scratch, lines)
}

//! Scans that the tests of the command are made with.

#![allow(dead_code, reason = "not every test uses everything")]

use compare::spec::{FileSpec, RecordSpec, padded};

/// A point record of format 0: stored X, Y, Z, the byte of class and flags, and return number.
pub fn point([x, y, z]: [i32; 3], class_byte: u8, return_number: u8) -> Vec<u8> {
    let mut point = vec![0; 20];
    for (place, stored) in [x, y, z].into_iter().enumerate() {
        point[4 * place..4 * place + 4].copy_from_slice(&stored.to_le_bytes());
    }
    point[14] = return_number;
    point[15] = class_byte;
    point
}

/// A record with a payload of so many bytes.
pub fn record(user_id: &[u8], record_id: u16, length: usize) -> RecordSpec {
    RecordSpec {
        reserved: [0; 2],
        user: padded(user_id),
        record_id,
        description: [0; 32],
        payload: vec![7; length],
    }
}

/// A file of format 0 with points of these classes, or bytes of class and flags, all at 0 and of return 1, and right
/// about them.
pub fn of_classes(classes: &[u8]) -> FileSpec {
    let points = classes.iter().map(|&class| point([0; 3], class, 1));
    FileSpec {
        points: points.collect(),
        old_by_return: [classes.len() as u32, 0, 0, 0, 0],
        ..FileSpec::bare(0)
    }
}

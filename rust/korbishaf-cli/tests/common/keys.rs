//! Scans with GeoKeys, for the tests of `korbishaf geokey`.

#![allow(dead_code, reason = "not every test uses everything")]

use super::common::{Ran, Scratch};
use compare::spec::{FileSpec, RecordSpec, directory, projection};

/// What is said where the two lookups differ.
pub const WARNING: &str = "warning: the answers differ, since the directory's keys do not rise strictly; \
                           do not rely on halving in this file";

/// Keys that rise, with values of every kind: key, location, count, value offset.
pub const KINDS: [[u16; 4]; 9] = [
    [0, 0, 1, 65535],
    [1024, 0, 1, 2],
    [1026, 34737, 7, 6],
    [2049, 34737, 0, 23],
    [2054, 0, 1, 9102],
    [2057, 34736, 1, 3],
    [2059, 34736, 1, 2],
    [3073, 34737, 10, 13],
    [65535, 34736, 1, 1],
];

/// A scan whose directory has these entries, with four doubles and with texts of 23 bytes.
pub fn scan(entries: &[[u16; 4]]) -> FileSpec {
    let doubles = [0.0, -0.0, f64::NAN, 6378137.0].map(f64::to_le_bytes);
    with_records([
        directory_of(entries),
        projection(34736, doubles.concat()),
        projection(34737, *b"aabaabWGS 84|a\\b \x1B[2J\xFC\0"),
    ])
}

/// The record of a directory with these entries.
pub fn directory_of(entries: &[[u16; 4]]) -> RecordSpec {
    let head = [1, 1, 0, entries.len() as u16];
    projection(34735, directory(head, entries))
}

/// A scan with these records and no points.
pub fn with_records(records: impl Into<Vec<RecordSpec>>) -> FileSpec {
    FileSpec {
        records: records.into(),
        ..FileSpec::bare(0)
    }
}

/// A folder with that scan, as `in.las`.
pub fn folder(file: &FileSpec) -> Scratch {
    let scratch = Scratch::new();
    scratch.write("in.las", file.bytes());
    scratch
}

/// Asserts that these lines are printed for a key, and nothing is said.
pub fn prints(file: &FileSpec, key: u16, lines: &[&str]) {
    let scratch = folder(file);
    let ran = scratch.says(&format!("geokey in.las {key}"));
    assert_eq!(ran, Ran::new(0, &format!("{}\n", lines.join("\n")), ""));
    assert_eq!(scratch.names(), ["in.las"]);
}

/// Asserts that a key is refused with these lines on standard error, whatever is to be printed.
pub fn refuses(file: &FileSpec, key: u16, lines: &[&str]) {
    let scratch = folder(file);
    let said = format!("{}\n", lines.join("\n"));
    for options in ["", "--json", "--quiet"] {
        let ran = scratch.says(&format!("geokey {options} in.las {key}"));
        assert_eq!(ran, Ran::new(1, "", &said), "{options}");
    }
}

//! What `korbishaf verify` says of a file that is not verified, as a process: each kind of finding, word by word.

mod common;
#[path = "common/known.rs"]
mod known;

use common::{Ran, Scratch};
use compare::spec::{FileSpec, padded};
use known::{SHEET, clean, point, record, said_of};

/// The file is not verified, and these are its lines.
fn not_verified(change: impl FnOnce(&mut FileSpec), lines: &str) {
    let summary = "1 file: 0 verified, 1 not verified, 0 not read\n";
    let wanted = format!("a.las: not verified: {lines}\n{summary}");
    assert_eq!(said_of(change), Ran::new(1, &wanted, ""));
}

#[test]
fn the_file_of_a_card_has_nearly_everything() {
    let scratch = Scratch::with_card("yard");
    let wanted = r#"in.las: not verified: byte 34, system identifier: "scanner\x00client 4711", a release has "scanner"
  byte 34: 11 bytes behind the end of the system identifier: "client 4711"
  byte 69: 11 bytes behind the end of the generating software: "client 4711"
  byte 111: the number of points of return 1 is wrong: 9 stated, 3 actual
  byte 115: the number of points of return 2 is wrong: 9 stated, 2 actual
  byte 119: the number of points of return 3 is wrong: 9 stated, 2 actual
  byte 123: the number of points of return 4 is wrong: 9 stated, 1 actual
  byte 127: the number of points of return 5 is wrong: 9 stated, 1 actual
  byte 179: the max X is wrong: 1.0 stated, 990.0 actual
  byte 187: the min X is wrong: 2.0 stated, 985.93 actual
  byte 195: the max Y is wrong: 3.0 stated, -1995.5 actual
  byte 203: the min Y is wrong: 4.0 stated, -2005.51 actual
  byte 211: the max Z is wrong: 5.0 stated, 26.25 actual
  byte 219: the min Z is wrong: 6.0 stated, -7.875 actual
  byte 227: 13 extra header bytes
  byte 240: record 1 of 3 (user ID "yardcrew", record ID 1), 68 bytes: the sheet does not keep it
  byte 308: the reserved bytes of record 2 of 3 (user ID "yard", record ID 7): BB AA
  byte 315: 1 byte behind the end of the user ID of record 2 of 3 (user ID "yard", record ID 7): "J"
  byte 343: 1 byte behind the end of the description of record 2 of 3 (user ID "yard", record ID 7): "J"
  byte 386: record 3 of 3 (user ID "yard", record ID 8), 69 bytes: the sheet does not keep it
  byte 455: 9 bytes between the records and the points
  byte 492: 3 points of class 5 (high-vegetation), 84 bytes: the sheet does not keep them; the first has index 1
  byte 800: 17 bytes behind the last counted point, not all zero: less than a whole point record
1 file: 0 verified, 1 not verified, 0 not read
"#;
    let ran = scratch.says("verify in.las sheet.bin");
    assert_eq!(ran, Ran::new(1, wanted, ""));
}

#[test]
fn points_behind_the_last_counted_one_are_found() {
    let leak = |bytes: usize| move |spec: &mut FileSpec| spec.trailing = vec![0x4C; bytes];
    let first = "byte 331, behind the last counted point: 4C, a release has 00\n  byte 331: ";
    let words =
        "60 bytes behind the last counted point, not all zero: as many as 3 whole point records";
    not_verified(leak(60), &format!("{first}{words}"));
    let words = "21 bytes behind the last counted point, not all zero: as many as 1 whole point record and 1 byte";
    not_verified(leak(21), &format!("{first}{words}"));
    let words =
        "1 byte behind the last counted point, not all zero: less than a whole point record";
    not_verified(leak(1), &format!("{first}{words}"));
    // a point that ends with zeros, and zeros behind it
    not_verified(
        |spec| spec.trailing = [vec![0; 3], vec![1; 10], vec![0; 90]].concat(),
        "byte 334, behind the last counted point: 01, a release has 00\n  \
         byte 331: 20 bytes behind the last counted point, not all zero: as many as 1 whole point record",
    );
}

#[test]
fn a_count_that_is_too_low_hides_a_point() {
    let scratch = Scratch::new();
    let mut file = clean().bytes();
    compare::damage::POINT_COUNT.set(&mut file, 1);
    scratch.write("a.las", file);
    scratch.write("sheet.txt", SHEET);
    let wanted = "a.las: not verified: byte 115, number of points of return 2: 1, a release has 0
  byte 115: the number of points of return 2 is wrong: 1 stated, 0 actual
  byte 179: the max X is wrong: 13.0 stated, 11.0 actual
  byte 203: the min Y is wrong: 8.0 stated, 12.0 actual
  byte 211: the max Z is wrong: 10.0 stated, 7.0 actual
  byte 311: 20 bytes behind the last counted point, not all zero: as many as 1 whole point record
1 file: 0 verified, 1 not verified, 0 not read
";
    let ran = scratch.says("verify a.las sheet.txt");
    assert_eq!(ran, Ran::new(1, wanted, ""));
}

#[test]
fn bytes_behind_the_ends_of_texts_are_found() {
    not_verified(
        |spec| spec.system = padded(b"scanner\0\0junk"),
        "byte 35, system identifier: \"scanner\\x00\\x00junk\", a release has \"scanner\"\n  \
         byte 35: 4 bytes behind the end of the system identifier: \"junk\"",
    );
    not_verified(
        |spec| spec.software = padded(b"cutter 1.0\0\x1B[2J"),
        "byte 69, generating software: \"cutter 1.0\\x00\\x1B[2J\", a release has \"cutter 1.0\"\n  \
         byte 69: 4 bytes behind the end of the generating software: \"\\x1B[2J\"",
    );
}

#[test]
fn bytes_behind_the_ends_of_a_records_texts_are_found() {
    let of = "of record 1 of 1 (user ID \"yard\", record ID 7)";
    not_verified(
        |spec| spec.records[0].user = padded(b"yard\0x"),
        &format!(
            "byte 234, user ID {of}: \"yard\\x00x\", a release has \"yard\"\n  \
             byte 234: 1 byte behind the end of the user ID {of}: \"x\""
        ),
    );
    not_verified(
        |spec| spec.records[0].description = padded(b"outline\0of Mill Lane"),
        &format!(
            "byte 257, description {of}: \"outline\\x00of Mill Lane\", a release has \"outline\"\n  \
             byte 257: 12 bytes behind the end of the description {of}: \"of Mill Lane\""
        ),
    );
}

#[test]
fn spaces_at_the_ends_of_texts_are_found() {
    not_verified(
        |spec| spec.system = padded(b"scanner  "),
        "byte 33, system identifier: \"scanner  \", a release has \"scanner\"\n  \
         byte 33: 2 bytes behind the end of the system identifier: \"  \"",
    );
    not_verified(
        |spec| spec.software = padded(b"cutter 1.0  \0 x"),
        "byte 68, generating software: \"cutter 1.0  \\x00 x\", a release has \"cutter 1.0\"\n  \
         byte 68: 5 bytes behind the end of the generating software: \"  \\x00 x\"",
    );
    let of = "of record 1 of 1 (user ID \"yard\", record ID 7)";
    not_verified(
        |spec| spec.records[0].user = *b"yard            ",
        &format!(
            "byte 233, user ID {of}: \"yard            \", a release has \"yard\"\n  \
             byte 233: 12 bytes behind the end of the user ID {of}: \"            \""
        ),
    );
    not_verified(
        |spec| spec.records[0].description = padded(b"   "),
        &format!(
            "byte 249, description {of}: \"   \", a release has \"\"\n  \
             byte 249: 3 bytes behind the end of the description {of}: \"   \""
        ),
    );
}

#[test]
fn the_last_byte_of_a_text_field_counts_too() {
    let of = "of record 1 of 1 (user ID \"yard\", record ID 7)";
    not_verified(
        |spec| spec.system[31] = b'!',
        &format!(
            "byte 57, system identifier: \"scanner{}!\", a release has \"scanner\"\n  \
             byte 57: 1 byte behind the end of the system identifier: \"!\"",
            "\\x00".repeat(24)
        ),
    );
    not_verified(
        |spec| spec.records[0].user[15] = b'!',
        &format!(
            "byte 244, user ID {of}: \"yard{}!\", a release has \"yard\"\n  \
             byte 244: 1 byte behind the end of the user ID {of}: \"!\"",
            "\\x00".repeat(11)
        ),
    );
    not_verified(
        |spec| spec.records[0].description[31] = b'!',
        &format!(
            "byte 280, description {of}: \"outline{}!\", a release has \"outline\"\n  \
             byte 280: 1 byte behind the end of the description {of}: \"!\"",
            "\\x00".repeat(24)
        ),
    );
}

#[test]
fn wrong_counts_and_bounds_are_found() {
    not_verified(
        |spec| spec.old_by_return[0] = 3,
        "byte 111, number of points of return 1: 3, a release has 1\n  \
         byte 111: the number of points of return 1 is wrong: 3 stated, 1 actual",
    );
    not_verified(
        |spec| spec.old_bounds[0] = 13.5f64.to_bits(),
        "byte 185, max X: 13.5, a release has 13.0\n  \
         byte 179: the max X is wrong: 13.5 stated, 13.0 actual",
    );
    not_verified(
        |spec| spec.old_bounds[5] = f64::NAN.to_bits(),
        "byte 225, min Z: NaN, a release has 7.0\n  \
         byte 219: the min Z is wrong: NaN stated, 7.0 actual",
    );
    // without points the bounds are +0.0, which -0.0 is not
    let without_points = |spec: &mut FileSpec| {
        spec.points.clear();
        spec.old_by_return = [0; 5];
        spec.old_bounds = [0.0, 0.0, -0.0, 0.0, 0.0, 0.0].map(f64::to_bits);
    };
    not_verified(
        without_points,
        "byte 202, max Y: -0.0, a release has 0.0\n  \
         byte 195: the max Y is wrong: -0.0 stated, 0.0 actual",
    );
}

#[test]
fn extra_header_bytes_are_found() {
    let size = "byte 94, header size: 235, a release has 227\n  byte 227: 8 extra header bytes";
    not_verified(|spec| spec.header_extra = vec![9; 8], size);
    not_verified(
        |spec| spec.header_extra = vec![0; 8],
        &format!("{size}, all zero"),
    );
    not_verified(
        |spec| spec.header_extra = vec![9],
        "byte 94, header size: 228, a release has 227\n  byte 227: 1 extra header byte",
    );
}

#[test]
fn records_that_are_not_kept_are_found() {
    not_verified(
        |spec| spec.records.push(record(b"crew", 1, 6)),
        "byte 96, point offset: 351, a release has 291\n  \
         byte 291: record 2 of 2 (user ID \"crew\", record ID 1), 60 bytes: the sheet does not keep it",
    );
    let of = "record 1 of 1 (user ID \"yard\", record ID 7)";
    not_verified(
        |spec| spec.records[0].reserved = [0xBB, 0xAA],
        &format!(
            "byte 227, reserved bytes of {of}: BB AA, a release has 00 00\n  \
             byte 227: the reserved bytes of {of}: BB AA"
        ),
    );
}

#[test]
fn of_many_records_the_first_are_listed() {
    for (more, words) in [(1, "1 more finding"), (968, "968 more findings")] {
        let records = vec![record(b"crew", 1, 0); 32 + more];
        let ran = said_of(|spec| spec.records = records);
        let lines: Vec<_> = ran.out.lines().collect();
        assert_eq!(lines.len(), 1 + 33 + 1);
        let wanted = format!(
            "  byte 1901: record 32 of {} (user ID \"crew\", record ID 1), 54 bytes: the sheet does not keep it",
            32 + more
        );
        assert_eq!(lines[32], wanted);
        let wanted = format!("  byte 1955: {words} in the records from here on");
        assert_eq!(lines[33], wanted);
    }
}

#[test]
fn bytes_before_the_points_are_found() {
    let offset = |gap| {
        format!(
            "byte 96, point offset: {}, a release has 291\n  ",
            291 + gap
        )
    };
    not_verified(
        |spec| spec.gap = vec![1, 0, 0],
        &format!(
            "{}byte 291: 3 bytes between the records and the points",
            offset(3)
        ),
    );
    not_verified(
        |spec| spec.gap = vec![0],
        &format!(
            "{}byte 291: 1 byte between the records and the points, all zero",
            offset(1)
        ),
    );
    not_verified(
        |spec| {
            spec.records.clear();
            spec.gap = vec![5; 2];
        },
        "byte 96, point offset: 229, a release has 227\n  \
         byte 227: 2 bytes between the header and the points",
    );
}

#[test]
fn points_that_are_not_kept_are_found() {
    not_verified(
        |spec| {
            spec.points.push(point([3, 3, -1], 1, 6));
            spec.old_by_return[0] = 2;
        },
        "byte 107, number of points: 3, a release has 2\n  \
         byte 331: 1 point of class 6 (building), 20 bytes: the sheet does not keep it; its index is 2",
    );
    not_verified(
        |spec| {
            // points of class 8, two of them key points and one synthetic
            for class in [72, 6, 72, 40] {
                spec.points.insert(1, point([3, 3, -1], 0, class));
            }
        },
        "byte 107, number of points: 6, a release has 2\n  \
         byte 311: 3 points of class 8 (model-key-point), 60 bytes: \
         the sheet does not keep them; the first has index 1\n  \
         byte 351: 1 point of class 6 (building), 20 bytes: the sheet does not keep it; its index is 3",
    );
}

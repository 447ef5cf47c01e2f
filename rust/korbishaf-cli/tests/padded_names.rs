//! Scans of a maker who fills texts with spaces, and sheets with such names, as processes.

mod common;
#[path = "common/known.rs"]
mod known;

use common::scan::of_classes;
use common::{Ran, Scratch};
use compare::spec::{FileSpec, directory, padded, projection};
use known::{SHEET, clean, record};

/// The clean file, with spaces behind all of its texts.
fn scan() -> FileSpec {
    let mut file = clean();
    file.system = *b"scanner                         ";
    file.software = padded(b"cutter 1.0  \0 x");
    file.records[0].user = *b"yard            ";
    file.records[0].description = *b"outline                         ";
    file
}

/// Sheets that keep class 2 and the record of "yard".
const SHEETS: [&[u8]; 5] = [
    SHEET.as_bytes(),
    b"class 2\nrecord \"yard            \" 7",
    b"class 2\nrecord \"yard\\x20\" 7",
    b"KS\x01\x02\x02KS\x02yard            \x07\0",
    b"KS\x01\x02\x02KS\x02yard \0 and more \x07\0",
];

/// A folder with the scan `in.las` and a sheet `sheet`.
fn with_sheet(file: &FileSpec, sheet: &[u8]) -> Scratch {
    let scratch = Scratch::new();
    scratch.write("in.las", file.bytes());
    scratch.write("sheet", sheet);
    scratch
}

/// Scan and sheet each with or without spaces: all give the same file, which has none, and it is verified.
#[test]
fn a_release_keeps_the_record_and_has_zeros_for_the_spaces() {
    for file in [scan(), clean()] {
        for sheet in SHEETS {
            let scratch = with_sheet(&file, sheet);
            let ran = scratch.says("release in.las sheet out.las");
            let line = "released 331 points 2 records 1\n";
            assert_eq!(ran, Ran::new(0, line, ""), "{}", sheet.escape_ascii());
            assert!(scratch.read("out.las") == clean().bytes());
            let ran = scratch.says("verify out.las sheet");
            let lines = "out.las: verified (331 bytes, 2 points, 1 record)\n\
                         1 file: 1 verified, 0 not verified, 0 not read\n";
            assert_eq!(ran, Ran::new(0, lines, ""), "{}", sheet.escape_ascii());
        }
    }
}

#[test]
fn spaces_elsewhere_and_other_blanks_count() {
    for user_id in [
        &b" yard"[..],
        b"ya rd",
        b"yard\t",
        b"yard \t",
        b"yard .",
        b"",
    ] {
        let mut file = scan();
        file.records = vec![record(user_id, 7, 10)];
        let ran = with_sheet(&file, SHEET.as_bytes()).says("release in.las sheet out.las");
        let line = "released 267 points 2 records 0\n";
        assert_eq!(ran, Ran::new(0, line, ""), "{}", user_id.escape_ascii());
    }
}

#[test]
fn a_name_of_spaces_is_an_empty_one() {
    let mut file = clean();
    for (user, sheet) in [
        (*b"                ", "record \"\" 7"),
        ([0; 16], "record \"   \" 7"),
        (*b"  \0 x           ", "record \" \" 7"),
    ] {
        file.records[0].user = user;
        let scratch = with_sheet(&file, sheet.as_bytes());
        let ran = scratch.says("release in.las sheet out.las");
        assert_eq!(ran, Ran::new(0, "released 291 points 0 records 1\n", ""));
        assert_eq!(scratch.read("out.las")[227..245], [0; 18]);
    }
}

#[test]
fn a_scan_with_spaces_is_not_verified_and_each_text_is_named() {
    let of = "of record 1 of 1 (user ID \"yard\", record ID 7)";
    let (some, more) = (" ".repeat(12), " ".repeat(25));
    let wanted = format!(
        "in.las: not verified: byte 33, system identifier: \"scanner{more}\", a release has \"scanner\"
  byte 33: 25 bytes behind the end of the system identifier: \"{more}\"
  byte 68: 5 bytes behind the end of the generating software: \"  \\x00 x\"
  byte 233: 12 bytes behind the end of the user ID {of}: \"{some}\"
  byte 256: 25 bytes behind the end of the description {of}: \"{more}\"
1 file: 0 verified, 1 not verified, 0 not read
"
    );
    for sheet in SHEETS {
        let ran = with_sheet(&scan(), sheet).says("verify in.las sheet");
        assert_eq!(ran, Ran::new(1, &wanted, ""));
    }
}

#[test]
fn a_report_has_the_names_without_their_spaces() {
    for sheet in SHEETS {
        let ran = with_sheet(&scan(), sheet).says("report in.las sheet");
        assert_eq!((ran.status, ran.err.as_str()), (Some(0), ""));
        for lines in [
            "\n  records\n    1  \"yard\" 7  10 bytes  \"outline\"\n",
            "\n  system identifier          \"scanner\"\n",
            "\n  generating software        \"cutter 1.0\"\n",
            "\nWarnings\n  - every point goes out (2 of 2)\n",
        ] {
            assert!(ran.out.contains(lines), "{}", ran.out);
        }
    }
}

#[test]
fn geokeys_are_found_by_a_name_with_a_space() {
    let keys = directory([1, 1, 0, 2], &[[1024, 0, 1, 2], [1026, 34737, 8, 0]]);
    let mut file = of_classes(&[2]);
    // a key's text is no text field: its spaces stay
    file.records = vec![
        projection(34735, keys),
        projection(34737, b"WGS 84  ".as_slice()),
    ];
    for record in &mut file.records {
        record.user = *b"LASF_Projection ";
    }
    let ran = with_sheet(&file, b"").says("show in.las");
    assert_eq!((ran.status, ran.err.as_str()), (Some(0), ""));
    for lines in [
        "\nRecords\n  1  \"LASF_Projection\" 34735  24 bytes  \"\"  GeoKey directory\n",
        "\nGeoKeys\n  1024  GTModelTypeGeoKey  2 (geographic)\n  1026  GTCitationGeoKey   \"WGS 84  \"\n",
    ] {
        assert!(ran.out.contains(lines), "{}", ran.out);
    }
}

#[test]
fn a_sheet_is_printed_and_written_without_the_spaces() {
    let scratch = Scratch::new();
    let lines = "class 2\nrecord yard 7\n";
    for sheet in SHEETS {
        scratch.write("sheet", sheet);
        assert_eq!(scratch.says("sheet sheet"), Ran::new(0, lines, ""));
    }
    scratch.write("sheet.txt", SHEETS[1]);
    let ran = scratch.says("sheet sheet.txt -o sheet.bin");
    assert_eq!(ran, Ran::new(0, "", ""));
    let bytes = b"KS\x01\x02\x02KS\x02yard\0\0\0\0\0\0\0\0\0\0\0\0\x07\0";
    assert_eq!(scratch.read("sheet.bin"), bytes);
}

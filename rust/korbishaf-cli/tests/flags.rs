//! Scans with synthetic points, key points and withheld points, as processes.

mod common;
#[path = "common/warned.rs"]
mod warned;

use common::json::{self, Value};
use common::scan::of_classes;
use common::{Ran, Scratch};
use compare::spec::FileSpec;
use warned::{is_silent, warnings, warns, with_files};

/// Points of the classes 1, 2 and 6 with all sorts of flags. The class is in the lower five bits of a byte; 32 is
/// synthetic, 64 a key point and 128 withheld.
const BYTES: [u8; 11] = [2, 34, 130, 66, 6, 98, 2, 226, 70, 134, 129];

fn scan() -> FileSpec {
    of_classes(&BYTES)
}

/// A folder with that scan and a sheet.
fn with_sheet(sheet: &str) -> Scratch {
    with_files(&scan().bytes(), sheet)
}

/// What is printed of it with `--json`.
fn json_of(scratch: &Scratch, words: &str) -> Value {
    let ran = scratch.says(words);
    assert_eq!(ran.err, "");
    json::read(&ran.out).expect("JSON")
}

#[test]
fn points_are_shown_by_class_and_by_flag() {
    let scratch = with_sheet("");
    let text = scratch.says("show in.las").out;
    let wanted = "
Points by class
  1  unclassified  1
  2  ground        7
  6  building      3

Points by flag
  synthetic  3
  key-point  4
  withheld   4

Points by return number
";
    assert!(text.contains(wanted), "{text}");
    let json = json_of(&scratch, "show --json in.las");
    let by_class = r#"[
        { "class": 1, "name": "unclassified", "points": 1 },
        { "class": 2, "name": "ground", "points": 7 },
        { "class": 6, "name": "building", "points": 3 }
    ]"#;
    assert_eq!(json.at("points_by_class"), &json::read(by_class).unwrap());
    let by_flag = r#"{ "synthetic": 3, "key_point": 4, "withheld": 4 }"#;
    assert_eq!(json.at("points_by_flag"), &json::read(by_flag).unwrap());
}

#[test]
fn flags_that_no_point_has_are_shown_too() {
    for (bytes, wanted) in [
        (
            &[2, 6][..],
            "  synthetic  0\n  key-point  0\n  withheld   0\n",
        ),
        (&[2, 66], "  synthetic  0\n  key-point  1\n  withheld   0\n"),
        (&[], "  none\n"),
    ] {
        let text = with_files(&of_classes(bytes).bytes(), "")
            .says("show in.las")
            .out;
        let wanted = format!("\nPoints by flag\n{wanted}\n");
        assert!(text.contains(&wanted), "{text}");
    }
}

/// The whole report on the scan under a sheet for class 2.
const REPORT: &str = r#"in.las under sheet.txt: nothing is written

Goes out: a file of 327 bytes with 5 of 11 points, 0 of 0 records
  points by class
    2  ground  5
  points by flag
    synthetic  2
    key-point  2

Stays: 6 of 11 points, 0 of 0 records
  points by class
    6  building  2
  withheld points by class, which stay whatever the sheet says
    1  unclassified  1
    2  ground        2
    6  building      1
  extra header bytes       0
  gap before the points    0
  bytes behind the points  0

Published whatever the sheet says
  file source ID             0
  global encoding            0
  project GUID               00000000-0000-0000-0000-000000000000
  system identifier          ""
  generating software        ""
  creation day               1
  creation year              2008
  point format               0
  record length              20
  extra bytes per point      0
  X, Y, Z scales             0.01, 0.01, 0.01
  X, Y, Z offsets            0.0, 0.0, 0.0
  of a point that goes out   X, Y, Z, intensity,
                             return number, number of returns, scan direction, edge of flight line,
                             class, synthetic, key-point, scan angle rank,
                             user data, point source ID
  of a record that goes out  user ID, record ID, description, payload

Warnings
  - 2 points of class 2 (ground) are withheld and stay whatever the sheet says
"#;

#[test]
fn a_report_tells_withheld_points_from_those_that_the_sheet_does_not_keep() {
    let scratch = with_sheet("class 2");
    let ran = scratch.says("report in.las sheet.txt");
    assert_eq!(ran, Ran::new(0, REPORT, ""));
}

#[test]
fn a_report_has_the_same_in_json() {
    let json = json_of(&with_sheet("class 2"), "report --json in.las sheet.txt");
    let goes_out = r#"{
        "length": 327,
        "points": 5,
        "points_by_class": [{ "class": 2, "name": "ground", "points": 5 }],
        "points_by_flag": { "synthetic": 2, "key_point": 2, "withheld": 0 },
        "records": []
    }"#;
    assert_eq!(json.at("goes_out"), &json::read(goes_out).unwrap());
    let stays = r#"{
        "points": 6,
        "points_by_class": [{ "class": 6, "name": "building", "points": 2 }],
        "withheld_points_by_class": [
            { "class": 1, "name": "unclassified", "points": 1 },
            { "class": 2, "name": "ground", "points": 2 },
            { "class": 6, "name": "building", "points": 1 }
        ],
        "points_outside_boxes_by_class": [],
        "records": [],
        "extra_header_bytes": { "length": 0, "all_zero": true },
        "gap_before_points": { "length": 0, "all_zero": true },
        "bytes_behind_points": { "length": 0, "all_zero": true }
    }"#;
    assert_eq!(json.at("stays"), &json::read(stays).unwrap());
    let of_a_point = json.at("always_published/of_a_point").list();
    let names: Vec<_> = of_a_point.iter().map(Value::text).collect();
    assert_eq!(names[8..11], ["class", "synthetic", "key-point"]);
    let warnings = r#"[{
        "kind": "withheld_stays",
        "words": "2 points of class 2 (ground) are withheld and stay whatever the sheet says",
        "class": 2,
        "points": 2
    }]"#;
    assert_eq!(json.at("warnings"), &json::read(warnings).unwrap());
}

/// Numbers of points by flag are there only where flags are set in points that go out, or points stay for them.
#[test]
fn a_report_without_flags_has_no_lines_about_them() {
    let of = |bytes: &[u8], sheet: &str| {
        let ran = with_files(&of_classes(bytes).bytes(), sheet).says("report in.las sheet.txt");
        assert_eq!((ran.status, ran.err.as_str()), (Some(0), ""));
        ran.out
    };
    let plain = of(&[2, 6], "class 2");
    for word in ["flag", "withheld"] {
        assert!(!plain.contains(word), "{plain}");
    }
    // of points that stay since the sheet does not keep them, no flag is of interest
    assert_eq!(of(&[2, 70], "class 2"), plain);
    let synthetic = of(&[34, 6], "class 2");
    let by_flag = "    2  ground  1\n  points by flag\n    synthetic  1\n\nStays";
    assert!(synthetic.contains(by_flag), "{synthetic}");
}

#[test]
fn a_release_has_the_points_of_the_class_but_the_withheld_ones() {
    for (sheet, kept) in [
        ("class 2", &[2, 34, 66, 98, 2][..]),
        ("class ground\nclass 66", &[2, 34, 66, 98, 2]),
        ("class 6", &[6, 70]),
        ("class 0-255", &[2, 34, 66, 6, 98, 2, 70]),
        ("class 2-31", &[2, 34, 66, 6, 98, 2, 70]),
        ("class 1", &[]),
        ("class 66\nclass 130\nclass 32-255", &[]),
    ] {
        let scratch = with_sheet(sheet);
        let (length, points) = (227 + 20 * kept.len(), kept.len());
        let line = format!("released {length} points {points} records 0\n");
        let ran = scratch.says("release in.las sheet.txt out.las");
        assert_eq!(ran, Ran::new(0, &line, ""), "{sheet}");
        let out = scratch.read("out.las");
        let bytes: Vec<u8> = out[227..].chunks(20).map(|point| point[15]).collect();
        assert_eq!(bytes, kept, "{sheet}");
        let ran = scratch.says("verify out.las sheet.txt");
        let point = if points == 1 { "point" } else { "points" };
        let lines = format!(
            "out.las: verified ({length} bytes, {points} {point}, 0 records)\n\
             1 file: 1 verified, 0 not verified, 0 not read\n"
        );
        assert_eq!(ran, Ran::new(0, &lines, ""), "{sheet}");
    }
}

/// A library below level 3 released withheld points, where a sheet had their byte.
#[test]
fn withheld_points_of_a_card_are_found() {
    let lines = |sheet: &str| with_sheet(sheet).says("verify in.las sheet.txt");
    let summary = "1 file: 0 verified, 1 not verified, 0 not read\n";
    let withheld =
        "  byte 267: 4 withheld points, 80 bytes: they never go out; the first has index 2\n";
    let wanted = format!(
        "in.las: not verified: byte 107, number of points: 11, a release has 7\n{withheld}{summary}"
    );
    assert_eq!(lines("class 0-255"), Ran::new(1, &wanted, ""));
    let wanted = format!(
        "in.las: not verified: byte 107, number of points: 11, a release has 5\n{withheld}  \
         byte 307: 2 points of class 6 (building), 40 bytes: the sheet does not keep them; the first has index 4\n\
         {summary}"
    );
    assert_eq!(lines("class 2\nclass 130"), Ran::new(1, &wanted, ""));
}

#[test]
fn one_withheld_point_is_found_in_lines_and_in_json() {
    let scratch = with_files(&of_classes(&[2, 2, 130]).bytes(), "class 2");
    let words = "1 withheld point, 20 bytes: it never goes out; its index is 2";
    let wanted = format!(
        "in.las: not verified: byte 107, number of points: 3, a release has 2\n  byte 267: {words}\n\
         1 file: 0 verified, 1 not verified, 0 not read\n"
    );
    let ran = scratch.says("verify in.las sheet.txt");
    assert_eq!(ran, Ran::new(1, &wanted, ""));
    let json = json_of(&scratch, "verify --json in.las sheet.txt");
    let wanted = format!(
        r#"[{{ "what": "points_withheld", "place": 267, "length": 20, "words": "{words}",
               "count": 1, "first_index": 2 }}]"#
    );
    assert_eq!(json.at("files/0/findings"), &json::read(&wanted).unwrap());
}

/// A card that was released for its key points alone: the sheet keeps none of them any more.
#[test]
fn key_points_of_a_card_are_points_of_their_class() {
    let scratch = with_files(&of_classes(&[66, 66]).bytes(), "class 66");
    let wanted = "in.las: not verified: byte 107, number of points: 2, a release has 0
  byte 227: 2 points of class 2 (ground), 40 bytes: the sheet does not keep them; the first has index 0
1 file: 0 verified, 1 not verified, 0 not read
";
    let ran = scratch.says("verify in.las sheet.txt");
    assert_eq!(ran, Ran::new(1, wanted, ""));
    scratch.write("sheet.txt", "class 2");
    assert_eq!(scratch.says("verify in.las sheet.txt").status, Some(0));
}

#[test]
fn withheld_points_of_a_kept_class_are_warned_of() {
    let file = of_classes(&[2, 6, 130, 162, 134, 9]);
    is_silent(&file, "class 9");
    let two = "2 points of class 2 (ground) are withheld and stay whatever the sheet says";
    let one = "1 point of class 6 (building) is withheld and stays whatever the sheet says";
    warns(&file, "class 2", "withheld_stays", two);
    warns(&file, "class 6", "withheld_stays", one);
    let both = [two, one].map(|words| ("withheld_stays".to_string(), words.to_string()));
    assert_eq!(warnings(&file, "class 0-6"), both);
    // a key point that is not withheld is no surprise
    is_silent(&of_classes(&[2, 34, 66, 98, 6]), "class 2");
}

#[test]
fn a_line_that_matches_withheld_points_alone_is_warned_of() {
    let found = warnings(
        &of_classes(&[2, 134, 9]),
        "class 2\nclass 6\nclass 3-7\nclass 10",
    );
    let idle = |words: &str| {
        let words = format!("sheet.txt:{words}");
        ("line_matches_nothing".to_string(), words)
    };
    let words = "1 point of class 6 (building) is withheld and stays whatever the sheet says";
    let wanted = [
        idle("2: matches nothing in this file but withheld points: class 6"),
        idle("3: matches nothing in this file but withheld points: class 3-7"),
        idle("4: matches nothing in this file: class 10"),
        ("withheld_stays".to_string(), words.to_string()),
    ];
    assert_eq!(found, wanted);
}

/// What a warning says of a line, behind its place and the line itself.
fn why_idle(file: &FileSpec, line: &str) -> String {
    let found = warnings(file, &format!("class 6\n{line}"));
    let [(kind, words)] = found.as_slice() else {
        panic!("{found:?}");
    };
    assert_eq!(kind, "line_matches_nothing");
    let before = format!("sheet.txt:2: matches nothing in this file: {line}");
    let why = words.strip_prefix(&before);
    why.unwrap_or_else(|| panic!("{words}")).to_string()
}

/// A sheet from before level 3 may have lines for classification bytes with flags.
#[test]
fn a_line_for_a_byte_with_flags_says_what_keeps_it() {
    let file = of_classes(&[6, 2, 34, 66, 98]);
    let no_class =
        "; in point formats 0 to 3 a class goes from 0 to 31, and flags are no part of it";
    for (line, instead) in [
        (
            "class 66",
            ": the line 'class 2' keeps points of the byte 66 (ground, key-point) too",
        ),
        (
            "class 34",
            ": the line 'class 2' keeps points of the byte 34 (ground, synthetic) too",
        ),
        (
            "class 98",
            ": the line 'class 2' keeps points of the byte 98 (ground, synthetic, key-point) too",
        ),
        (
            "class 32",
            ": the line 'class 0' keeps points of the byte 32 (created-never-classified, synthetic) too",
        ),
        (
            "class 130",
            ": points of the byte 130 (ground, withheld) never go out",
        ),
        (
            "class 255",
            ": points of the byte 255 (reserved, synthetic, key-point, withheld) never go out",
        ),
        ("class 66-67", ""),
        ("class 32-255", ""),
    ] {
        assert_eq!(why_idle(&file, line), format!("{no_class}{instead}"));
    }
    for line in ["class 31", "class 10-255", "class 5"] {
        assert_eq!(why_idle(&file, line), "");
    }
}

#[test]
fn lines_that_hold_classes_above_31_too_are_not_warned_of() {
    is_silent(&of_classes(&[2, 6]), "class 5-255");
    is_silent(&of_classes(&[2, 95]), "class 20-200");
}

#[test]
fn all_points_that_are_not_withheld_are_all_that_can_go_out() {
    let file = of_classes(&[2, 66, 6, 129, 129]);
    let words = "every point that is not withheld goes out (3 of 5)";
    warns(&file, "class 2\nclass 6", "every_point_goes_out", words);
    let file = of_classes(&[129, 130]);
    let words = "no point goes out (0 of 2)";
    warns(&file, "", "no_point_goes_out", words);
}

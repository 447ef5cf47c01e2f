//! `korbishaf report` under sheets with boxes, as a process.

mod common;
#[path = "common/warned.rs"]
mod warned;

use common::Ran;
use common::json;
use common::scan::point;
use compare::spec::FileSpec;
use warned::{is_silent, warnings, warns, with_files};

/// A file of format 0 with points of these classification bytes at these stored X, and right about them.
fn along_x(points: &[(i32, u8)]) -> FileSpec {
    let stored = points.iter().map(|(x, _)| *x);
    let bound = |stored: Option<i32>| f64::from(stored.unwrap_or(0)).to_bits();
    FileSpec {
        points: points
            .iter()
            .map(|&(x, byte)| point([x, 0, 0], byte, 1))
            .collect(),
        scale: [1.0; 3],
        old_by_return: [points.len() as u32, 0, 0, 0, 0],
        old_bounds: [bound(stored.clone().max()), bound(stored.min()), 0, 0, 0, 0],
        ..FileSpec::bare(0)
    }
}

/// Ground, key points, buildings and withheld points, in the box X 0..9 and outside it.
fn scan() -> FileSpec {
    along_x(&[
        (0, 2),
        (9, 66),
        (10, 2),
        (-1, 2),
        (5, 6),
        (-5, 6),
        (5, 130),
        (50, 130),
        (5, 134),
        (11, 66),
    ])
}

/// The whole report under a sheet for ground in that box.
const REPORT: &str = r#"in.las under sheet.txt: nothing is written

Goes out: a file of 267 bytes with 2 of 10 points, 0 of 0 records
  points by class
    2  ground  2
  points by flag
    key-point  1

Stays: 8 of 10 points, 0 of 0 records
  points by class
    6  building  2
  withheld points by class, which stay whatever the sheet says
    2  ground    2
    6  building  1
  points outside all boxes by class, which stay though their class is kept
    2  ground  3
  extra header bytes       0
  gap before the points    0
  bytes behind the points  0

Published whatever the sheet says
  file source ID             0
  global encoding            0
  project GUID               00000000-0000-0000-0000-000000000000
  system identifier          ""
  generating software        ""
  creation day               1
  creation year              2008
  point format               0
  record length              20
  extra bytes per point      0
  X, Y, Z scales             1.0, 1.0, 1.0
  X, Y, Z offsets            0.0, 0.0, 0.0
  of a point that goes out   X, Y, Z, intensity,
                             return number, number of returns, scan direction, edge of flight line,
                             class, synthetic, key-point, scan angle rank,
                             user data, point source ID
  of a record that goes out  user ID, record ID, description, payload

Warnings
  - 1 point of class 2 (ground) is withheld and stays whatever the sheet says
"#;

const SHEET: &str = "class 2\nbox X 0..9";

#[test]
fn points_outside_all_boxes_are_listed_apart() {
    let scratch = with_files(&scan().bytes(), SHEET);
    let ran = scratch.says("report in.las sheet.txt");
    assert_eq!(ran, Ran::new(0, REPORT, ""));
    assert_eq!(scratch.names(), ["in.las", "sheet.txt"]);
}

#[test]
fn a_report_has_the_same_in_json() {
    let scratch = with_files(&scan().bytes(), SHEET);
    let ran = scratch.says("report --json in.las sheet.txt");
    let json = json::read(&ran.out).expect("JSON");
    let goes_out = r#"{
        "length": 267,
        "points": 2,
        "points_by_class": [{ "class": 2, "name": "ground", "points": 2 }],
        "points_by_flag": { "synthetic": 0, "key_point": 1, "withheld": 0 },
        "records": []
    }"#;
    assert_eq!(json.at("goes_out"), &json::read(goes_out).unwrap());
    let stays = r#"{
        "points": 8,
        "points_by_class": [{ "class": 6, "name": "building", "points": 2 }],
        "withheld_points_by_class": [
            { "class": 2, "name": "ground", "points": 2 },
            { "class": 6, "name": "building", "points": 1 }
        ],
        "points_outside_boxes_by_class": [{ "class": 2, "name": "ground", "points": 3 }],
        "records": [],
        "extra_header_bytes": { "length": 0, "all_zero": true },
        "gap_before_points": { "length": 0, "all_zero": true },
        "bytes_behind_points": { "length": 0, "all_zero": true }
    }"#;
    assert_eq!(json.at("stays"), &json::read(stays).unwrap());
}

/// The lists of what stays, in the order of the report, and the number beside 'Stays'.
fn staying(sheet: &str) -> ([u64; 3], u64) {
    let scratch = with_files(&scan().bytes(), sheet);
    let json = json::read(&scratch.says("report --json in.las sheet.txt").out).expect("JSON");
    let stays = json.at("stays");
    let sum = |list| {
        let counts = stays.at(list).list().iter();
        counts.map(|count| count.at("points").number()).sum()
    };
    let lists = [
        "points_by_class",
        "withheld_points_by_class",
        "points_outside_boxes_by_class",
    ];
    (lists.map(sum), stays.at("points").number())
}

#[test]
fn each_point_that_stays_has_one_reason() {
    for (sheet, lists) in [
        ("", [7, 3, 0]),
        ("class 0-31", [0, 3, 0]),
        ("class 2", [2, 3, 0]),
        ("class 2\nbox X 0..9", [2, 3, 3]),
        ("class 6\nbox X 0..9", [5, 3, 1]),
        ("class 0-31\nbox X 0..9", [0, 3, 4]),
        ("class 0-31\nbox X 1000..2000", [0, 3, 7]),
        ("class 0-31\nbox X 0..9\nbox X -9..-1", [0, 3, 2]),
        ("box X 0..9", [7, 3, 0]),
    ] {
        let (found, points) = staying(sheet);
        assert_eq!(found, lists, "{sheet}");
        assert_eq!(points, lists.iter().sum(), "{sheet}");
    }
}

#[test]
fn boxes_that_no_point_lies_in_are_warned_of() {
    let file = along_x(&[(0, 2), (20, 2), (5, 6)]);
    is_silent(&file, "class 2\nbox X 0..9");
    let words = "sheet.txt:4: matches nothing in this file: box X 10..19";
    warns(
        &file,
        "class 2\n\nbox X 0..9\nbox X 10..19",
        "line_matches_nothing",
        words,
    );
    let words = "sheet.txt:1: matches nothing in this file: box Y 1..2147483647";
    warns(
        &file,
        "box Y 1..2147483647\nbox X 0..9\nclass 2",
        "line_matches_nothing",
        words,
    );
}

/// Lines that hold points all of which stay for another reason.
#[test]
fn lines_without_points_that_go_out_are_warned_of() {
    let file = along_x(&[(0, 2), (20, 2), (5, 6), (5, 134), (30, 134), (40, 137)]);
    for (sheet, words) in [
        (
            "class 2\nclass 6\nbox X 0..0",
            "2: matches nothing in this file but withheld points and points outside all boxes: class 6",
        ),
        (
            "class 2\nclass 9\nbox X 0..0",
            "2: matches nothing in this file but withheld points: class 9",
        ),
        (
            "class 6\nclass 2\nbox X 5..5",
            "2: matches nothing in this file but points outside all boxes: class 2",
        ),
        (
            "class 2\nbox X 0..0\nbox X 5..5",
            "3: matches nothing in this file but withheld points and points of classes that are not kept: box X 5..5",
        ),
        (
            "class 2\nbox X 0..0\nbox X 30..30",
            "3: matches nothing in this file but withheld points: box X 30..30",
        ),
        (
            "class 6\nbox X 5..5\nbox X 20..25",
            "3: matches nothing in this file but points of classes that are not kept: box X 20..25",
        ),
    ] {
        let found = warnings(&file, sheet);
        let idle: Vec<_> = found
            .iter()
            .filter(|(kind, _)| kind == "line_matches_nothing")
            .collect();
        let wanted = (
            "line_matches_nothing".to_string(),
            format!("sheet.txt:{words}"),
        );
        assert_eq!(idle, [&wanted], "{sheet}");
    }
}

/// Its boxes hold points, which is not said of each.
#[test]
fn boxes_without_classes_are_warned_of() {
    let file = along_x(&[(0, 2), (20, 2)]);
    let wanted = [
        (
            "line_matches_nothing",
            "sheet.txt:3: matches nothing in this file: box X 1..2",
        ),
        (
            "boxes_without_classes",
            "the sheet has boxes and no line for classes, and so keeps no point",
        ),
        ("no_point_goes_out", "no point goes out (0 of 2)"),
    ];
    let wanted = wanted.map(|(kind, words)| (kind.to_string(), words.to_string()));
    assert_eq!(
        warnings(&file, "box X 0..9\nbox X 20..20\nbox X 1..2"),
        wanted
    );
    // a line for classes that no point has is one for classes
    let found = warnings(&file, "class 9\nbox X 0..9");
    assert!(
        found
            .iter()
            .all(|(kind, _)| kind != "boxes_without_classes"),
        "{found:?}"
    );
}

#[test]
fn what_warnings_speak_of_is_in_json() {
    let scratch = with_files(
        &along_x(&[(0, 2)]).bytes(),
        "# yard\nbox X 0..9\nbox Y 5..9",
    );
    let json = json::read(&scratch.says("report --json in.las sheet.txt").out).expect("JSON");
    let json = json.at("warnings");
    assert_eq!(json.at("0/line").number(), 3);
    assert_eq!(json.at("0/line_text").text(), "box Y 5..9");
    assert_eq!(json.at("1/kind").text(), "boxes_without_classes");
    assert_eq!(json.at("1/boxes").number(), 2);
}

/// Withheld points outside all boxes would stay anyway, and are not spoken of.
#[test]
fn withheld_points_in_a_box_are_warned_of() {
    let file = along_x(&[(0, 2), (20, 2), (1, 130), (2, 130), (20, 130)]);
    let words = "2 points of class 2 (ground) are withheld and stay whatever the sheet says";
    warns(&file, "class 2\nbox X 0..9", "withheld_stays", words);
    is_silent(&file, "class 2\nbox X 0..0");
}

#[test]
fn all_or_none_of_the_points() {
    let file = along_x(&[(0, 2), (9, 6), (9, 134)]);
    let all = [
        (
            "withheld_stays",
            "1 point of class 6 (building) is withheld and stays whatever the sheet says",
        ),
        (
            "every_point_goes_out",
            "every point that is not withheld goes out (2 of 3)",
        ),
    ];
    let all = all.map(|(kind, words)| (kind.to_string(), words.to_string()));
    assert_eq!(warnings(&file, "class 2\nclass 6\nbox X 0..9"), all);
    let some = warnings(&file, "class 2\nclass 6\nbox X 0..8");
    assert!(
        some.iter().all(|(kind, _)| kind != "every_point_goes_out"),
        "{some:?}"
    );
    let none = warnings(&file, "class 2\nclass 6\nbox X 10..11");
    let wanted = (
        "no_point_goes_out".to_string(),
        "no point goes out (0 of 3)".to_string(),
    );
    assert_eq!(none.last(), Some(&wanted));
}

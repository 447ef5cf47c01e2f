//! `korbishaf verify` under sheets with boxes, as a process.

mod common;
#[path = "common/warned.rs"]
mod warned;

use common::Ran;
use common::json;
use common::scan::point;
use compare::spec::FileSpec;
use warned::with_files;

/// Points of these classification bytes at these stored X.
fn along_x(points: &[(i32, u8)]) -> Vec<u8> {
    let points = points.iter().map(|&(x, byte)| point([x, 0, 0], byte, 0));
    FileSpec {
        points: points.collect(),
        scale: [1.0; 3],
        ..FileSpec::bare(0)
    }
    .bytes()
}

/// The lines below that of the file, which is not verified.
fn findings(file: &[u8], sheet: &str) -> Vec<String> {
    let ran = with_files(file, sheet).says("verify in.las sheet.txt");
    assert_eq!((ran.status, ran.err.as_str()), (Some(1), ""), "{}", ran.out);
    let lines: Vec<_> = ran.out.lines().map(String::from).collect();
    assert!(
        lines[0].starts_with("in.las: not verified: "),
        "{}",
        ran.out
    );
    lines[1..lines.len() - 1].to_vec()
}

#[test]
fn points_outside_all_boxes_are_found() {
    let file = along_x(&[(0, 2), (-1, 2), (9, 2), (10, 2), (0, 6)]);
    let outside = "  byte 247: 2 points outside all boxes, 40 bytes: \
                   the sheet does not keep them; the first has index 1";
    let found = findings(&file, "class 0-31\nbox X 0..9");
    assert!(found.contains(&outside.to_string()), "{found:?}");
    let one = "  byte 247: 1 point outside all boxes, 20 bytes: the sheet does not keep it; its index is 1";
    let found = findings(&file, "class 0-31\nbox X 0..9\nbox X 10..10");
    assert!(found.contains(&one.to_string()), "{found:?}");
}

/// A point that stays for two reasons is found once.
#[test]
fn each_point_is_found_under_one_reason() {
    let file = along_x(&[(0, 2), (50, 130), (50, 6), (50, 134), (50, 2), (1, 6)]);
    let found = findings(&file, "class 2\nbox X 0..9");
    let of_points: Vec<_> = found.iter().filter(|line| line.contains("point")).collect();
    let wanted = [
        "  byte 247: 2 withheld points, 40 bytes: they never go out; the first has index 1",
        "  byte 267: 2 points of class 6 (building), 40 bytes: the sheet does not keep them; the first has index 2",
        "  byte 307: 1 point outside all boxes, 20 bytes: the sheet does not keep it; its index is 4",
    ];
    assert_eq!(of_points, wanted);
}

#[test]
fn a_finding_has_the_same_in_json() {
    let scratch = with_files(&along_x(&[(0, 2), (-1, 2)]), "class 2\nbox X 0..9");
    let ran = scratch.says("verify --json in.las sheet.txt");
    let json = json::read(&ran.out).expect("JSON");
    let findings = json.at("files/0/findings").list();
    let wanted = r#"{
        "what": "points_outside_boxes",
        "place": 247,
        "length": 20,
        "words": "1 point outside all boxes, 20 bytes: the sheet does not keep it; its index is 1",
        "count": 1,
        "first_index": 1
    }"#;
    assert_eq!(findings.last(), json::read(wanted).as_ref());
    assert_eq!(json.at("files/0/release/points").number(), 1);
}

/// What was released without boxes has points that a sheet with boxes does not keep.
#[test]
fn a_card_is_verified_under_the_boxes_that_it_was_released_with() {
    let scratch = with_files(&along_x(&[(0, 2), (20, 2), (5, 2)]), "class 2\nbox X 0..9");
    scratch.write("all.txt", "class 2");
    scratch.write("other.txt", "class 2\nbox X 0..4");
    for (sheet, points) in [("sheet.txt", 2), ("all.txt", 3)] {
        let ran = scratch.says(&format!("release -f in.las {sheet} out.las"));
        assert_eq!(ran.status, Some(0));
        let verified = format!(
            "out.las: verified ({} bytes, {points} points, 0 records)\n\
             1 file: 1 verified, 0 not verified, 0 not read\n",
            227 + 20 * points
        );
        let ran = scratch.says(&format!("verify out.las {sheet}"));
        assert_eq!(ran, Ran::new(0, &verified, ""));
        let ran = scratch.says("verify out.las other.txt");
        assert_eq!(ran.status, Some(1));
        assert!(ran.out.contains("outside all boxes"), "{}", ran.out);
    }
}

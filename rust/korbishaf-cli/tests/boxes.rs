//! Sheets with boxes, as processes: their text and bytes, and what goes out under them.

mod common;
#[path = "common/warned.rs"]
mod warned;

use common::json;
use common::scan::point;
use common::{Ran, Scratch};
use compare::spec::FileSpec;
use warned::with_files;

const TEXT: &str = "\
# the yard, and not the road
class ground
box x -1500..2000 Y 0..4000 # at any height
box Z -2147483648..-1 X 5..5 Y -7..+7
";

const LINES: &str = "class 2\nbox X -1500..2000 Y 0..4000\nbox X 5..5 Y -7..7 Z -2147483648..-1\n";

const BYTES: &[u8] = b"KS\x01\x02\x02\
    KS\x03\x24\xFA\xFF\xFF\xD0\x07\0\0\0\0\0\0\xA0\x0F\0\0\0\0\0\x80\xFF\xFF\xFF\x7F\
    KS\x03\x05\0\0\0\x05\0\0\0\xF9\xFF\xFF\xFF\x07\0\0\0\0\0\0\x80\xFF\xFF\xFF\xFF";

#[test]
fn text_to_bytes_to_text() {
    let scratch = Scratch::new();
    scratch.write("sheet.txt", TEXT.replace("+7", "7"));
    assert_eq!(scratch.says("sheet sheet.txt"), Ran::new(0, LINES, ""));
    let silent = Ran::new(0, "", "");
    assert_eq!(scratch.says("sheet sheet.txt -o sheet.bin"), silent);
    assert_eq!(scratch.read("sheet.bin"), BYTES);
    assert_eq!(scratch.says("sheet sheet.bin"), Ran::new(0, LINES, ""));
}

#[test]
fn mistakes_have_file_line_and_column() {
    let scratch = Scratch::new();
    scratch.write("sheet.txt", TEXT);
    let range = "from -2147483648 to 2147483647";
    let said = format!(
        "sheet.txt:4:36: expected the high stored value behind the '..', {range}, found '+7'\n"
    );
    assert_eq!(scratch.says("sheet sheet.txt"), Ran::new(1, "", &said));
    for (text, said) in [
        (
            "box",
            "1:4: expected an axis, 'X', 'Y' or 'Z', before its range, found nothing",
        ),
        (
            "class 2\n box X 5..3",
            "2:8: expected the low value before the high one, '3..5', found '5..3'",
        ),
        (
            "box X 1..2 Y 1..2 X 1..2",
            "1:19: expected each axis once, found another 'X'",
        ),
    ] {
        scratch.write("sheet.txt", text);
        let wanted = Ran::new(1, "", &format!("sheet.txt:{said}\n"));
        for words in ["sheet sheet.txt", "sheet sheet.txt -o out.bin"] {
            assert_eq!(scratch.says(words), wanted, "{words}");
        }
    }
    assert_eq!(scratch.names(), ["sheet.txt"]);
}

#[test]
fn a_class_is_asked_for_without_boxes() {
    let scratch = Scratch::new();
    scratch.write("sheet.txt", "box X 0..0\nclass 2\nbox Y 1..1");
    for (class, said) in [
        (
            "2",
            "class 2 (ground): kept by sheet.txt:2: class 2 (2 of 3 lines looked at)\n",
        ),
        (
            "6",
            "class 6 (building): not kept (3 of 3 lines looked at)\n",
        ),
    ] {
        let ran = scratch.run(["sheet", "--class", class, "sheet.txt"]);
        assert_eq!(ran, Ran::new(0, said, ""));
    }
}

/// Points of class 2 along X, from -2 to 2, and one of class 6 at the end.
fn scan() -> FileSpec {
    let points = [(-2, 2), (-1, 2), (0, 2), (1, 2), (2, 6)];
    FileSpec {
        points: points
            .map(|(x, class)| point([x, 10 * x, 0], class, 1))
            .into(),
        ..FileSpec::bare(0)
    }
}

/// The stored X of the points that are released, which the released file's bounds agree with.
fn released(sheet: &str) -> Vec<i32> {
    let scratch = with_files(&scan().bytes(), sheet);
    let ran = scratch.says("release in.las sheet.txt out.las");
    let out = scratch.read("out.las");
    let (length, points) = (out.len(), (out.len() - 227) / 20);
    let line = format!("released {length} points {points} records 0\n");
    assert_eq!(ran, Ran::new(0, &line, ""), "{sheet}");
    assert_eq!(scratch.says("verify out.las sheet.txt").status, Some(0));
    let points = out[227..].chunks(20);
    points
        .map(|point| i32::from_le_bytes(*point.first_chunk().unwrap()))
        .collect()
}

#[test]
fn points_in_one_of_the_boxes_go_out() {
    for (boxes, kept) in [
        ("", &[-2, -1, 0, 1][..]),
        ("box X -1..1", &[-1, 0, 1]),
        ("box Y -10..10", &[-1, 0, 1]),
        ("box X -1..2147483647 Y -2147483648..0", &[-1, 0]),
        ("box X 1..1\nbox X -2..-2", &[-2, 1]),
        ("box X 2..2", &[]),
        ("box Z 1..1", &[]),
    ] {
        assert_eq!(released(&format!("class 2\n{boxes}")), kept, "{boxes}");
    }
    assert_eq!(released("class 0-31\nbox X 0..2"), [0, 1, 2]);
    assert_eq!(released("box X 0..2"), []);
}

#[test]
fn a_list_has_the_points_in_the_boxes() {
    let scratch = with_files(&scan().bytes(), "class 0-31\nbox X -1..-1\nbox X 1..2");
    let wanted = "in.las under sheet.txt: the parts that go out; not to be handed on
  place  length
    247      20  point 2
    287      40  points 4 to 5
3 parts: 0 records, 3 points, 60 bytes
";
    let ran = scratch.says("list --runs in.las sheet.txt");
    assert_eq!(ran, Ran::new(0, wanted, ""));
}

/// What `show` has beside the bounds is the smallest box in which all points lie.
#[test]
fn the_stored_values_beside_the_bounds_make_a_box() {
    let scratch = with_files(&scan().bytes(), "class 0-31");
    let json = json::read(&scratch.says("show --json in.las").out).expect("JSON");
    let stored = |name: &str| json.at(&format!("bounds/{name}/stored")).double();
    let axis = |name: &str| {
        format!(
            "{}..{}",
            stored(&format!("min_{name}")),
            stored(&format!("max_{name}"))
        )
    };
    let line = format!("box X {} Y {} Z {}", axis("x"), axis("y"), axis("z"));
    assert_eq!(line, "box X -2..2 Y -20..20 Z 0..0");
    assert_eq!(released(&format!("class 0-31\n{line}")), [-2, -1, 0, 1, 2]);
    let empty = with_files(&FileSpec::bare(0).bytes(), "");
    let json = json::read(&empty.says("show --json in.las").out).expect("JSON");
    assert_eq!(json.at("bounds/max_x/stored"), &json::Value::Null);
}

#[test]
fn full_sheets_of_boxes() {
    let boxes: Vec<_> = (0..64)
        .map(|place| format!("box X {place}..{place}"))
        .collect();
    assert_eq!(released(&boxes.join("\n")), []);
    let with_class = format!("class 2\n{}", boxes[..63].join("\n"));
    assert_eq!(released(&with_class), [0, 1]);
    let scratch = with_files(&scan().bytes(), format!("class 2\n{}", boxes.join("\n")));
    let said = "sheet.txt:65:1: expected at most 64 lines, found another\n";
    let ran = scratch.says("release in.las sheet.txt out.las");
    assert_eq!(ran, Ran::new(1, "", said));
}

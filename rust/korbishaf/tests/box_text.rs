//! Boxes in the text of a sheet: what is read and written, and the place and the words of each mistake.

use korbishaf::{Line, Sheet};

const LEAST: i32 = i32::MIN;
const MOST: i32 = i32::MAX;

/// The one line of a good text.
fn read(text: &str) -> Line {
    let sheet = Sheet::from_text(text).unwrap();
    let lines: Vec<_> = sheet.lines().collect();
    assert_eq!(lines.len(), 1, "{text}");
    lines[0]
}

#[test]
fn boxes_of_three_axes() {
    for (text, low, high) in [
        ("box X 1..2 Y 3..4 Z 5..6", [1, 3, 5], [2, 4, 6]),
        ("box X -20..-10 Y -5..5 Z 0..0", [-20, -5, 0], [-10, 5, 0]),
        (
            "box X -2147483648..2147483646 Y 2147483647..2147483647 Z -2147483648..-2147483648",
            [LEAST, MOST, LEAST],
            [MOST - 1, MOST, LEAST],
        ),
    ] {
        let line = Line::bounding_box(low, high);
        assert_eq!(read(text), line);
        assert_eq!(line.to_string(), text);
    }
}

#[test]
fn an_axis_that_is_left_out_is_whole() {
    for (text, low, high) in [
        ("box X 1..2", [1, LEAST, LEAST], [2, MOST, MOST]),
        ("box Y 1..2", [LEAST, 1, LEAST], [MOST, 2, MOST]),
        ("box Z 1..2", [LEAST, LEAST, 1], [MOST, MOST, 2]),
        ("box X 1..2 Y 3..4", [1, 3, LEAST], [2, 4, MOST]),
        ("box X 1..2 Z 3..4", [1, LEAST, 3], [2, MOST, 4]),
        ("box Y 1..2 Z 3..4", [LEAST, 1, 3], [MOST, 2, 4]),
    ] {
        let line = Line::bounding_box(low, high);
        assert_eq!(read(text), line, "{text}");
        assert_eq!(line.to_string(), text);
    }
}

/// A box without an axis is a mistake, so that one that bounds nothing has all three.
#[test]
fn a_box_that_bounds_nothing_has_all_axes() {
    let text = "box X -2147483648..2147483647 Y -2147483648..2147483647 Z -2147483648..2147483647";
    let whole = Line::bounding_box([LEAST; 3], [MOST; 3]);
    assert_eq!(whole.to_string(), text);
    assert_eq!(read(text), whole);
    assert_eq!(read("box Y -2147483648..2147483647"), whole);
}

#[test]
fn layout_order_and_case_do_not_count() {
    let line = Line::bounding_box([-1, 3, 5], [2, 4, 6]);
    for text in [
        "box Z 5..6 Y 3..4 X -1..2",
        "box y 3..4 x -1..2 z 5..6",
        " \tbox\tX\t-1..2  Y 3..4   Z 5..6 \t# the yard",
        "box X -1..2 Y 3..4 Z 5..6# the yard",
        "\n# the yard\nbox X -0001..002 Y 3..4 Z 00000000000000005..6\r\n",
    ] {
        assert_eq!(read(text), line, "{text:?}");
    }
    assert_eq!(read("box X -0..0"), read("box X 0..0"));
    assert_eq!(line.to_string(), "box X -1..2 Y 3..4 Z 5..6");
}

/// Asserts the column and the words of the first mistake in a text of one line.
fn mistaken(shared: &str, texts: &[(&str, usize, &str)]) {
    for (text, column, words) in texts {
        let mistake = Sheet::from_text(text).unwrap_err();
        assert_eq!((mistake.line(), mistake.column()), (1, *column), "{text}");
        assert_eq!(mistake.words(), format!("{shared}{words}"), "{text}");
    }
}

#[test]
fn axes_that_are_missing_or_unknown() {
    mistaken(
        "expected an axis, 'X', 'Y' or 'Z', before its range, found ",
        &[
            ("box", 4, "nothing"),
            ("box # X 0..1", 5, "nothing"),
            ("box 0..10 0..10 0..10", 5, "'0..10'"),
            ("box W 0..1", 5, "'W'"),
            ("box XY 0..1", 5, "'XY'"),
            ("box X=0..1", 5, "'X=0..1'"),
            ("box \"X\" 0..1", 5, r#"'"X"'"#),
            ("box \u{fc}", 5, r"'\xC3\xBC'"),
        ],
    );
    mistaken(
        "expected an axis, 'X', 'Y' or 'Z', before its range, or the end of the line, found ",
        &[
            ("box X 0..1 0..1", 12, "'0..1'"),
            ("box X 0..1 Y 0..1 Z 0..1 W", 26, "'W'"),
        ],
    );
}

#[test]
fn axes_that_stand_there_twice() {
    mistaken(
        "expected each axis once, found another ",
        &[
            ("box X 0..1 X 2..3", 12, "'X'"),
            ("box X 0..1 Y 0..1 y 0..1", 19, "'Y'"),
            ("box Z 0..1 X 0..1 Y 0..1 z", 26, "'Z'"),
        ],
    );
}

#[test]
fn ranges_that_are_missing() {
    for (axis, texts) in [
        (
            "X",
            [
                ("box X", 6, "nothing"),
                ("box x # 0..1", 7, "nothing"),
                ("box X 5", 7, "'5'"),
                ("box X 3-5", 7, "'3-5'"),
            ],
        ),
        (
            "Z",
            [
                ("box Z 0 .. 10", 7, "'0'"),
                ("box Y 0..1 Z X 0..1", 14, "'X'"),
                ("box Z 0.5", 7, "'0.5'"),
                ("box Z 0,10", 7, "'0,10'"),
            ],
        ),
    ] {
        let shared =
            format!("expected a range without blanks behind '{axis}', as in '-20..35', found ");
        mistaken(&shared, &texts);
    }
}

#[test]
fn values_that_are_no_stored_values() {
    let whole = " (stored values are whole numbers, before scale and offset)";
    mistaken(
        "expected the low stored value before the '..', from -2147483648 to 2147483647, found ",
        &[
            ("box X ..5", 7, "nothing"),
            ("box X ..", 7, "nothing"),
            ("box X 2147483648..2147483648", 7, "'2147483648'"),
            ("box X -2147483649..0", 7, "'-2147483649'"),
            ("box Y 99999999999999999999..0", 7, "'99999999999999999999'"),
            ("box Y +1..2", 7, "'+1'"),
            ("box Y --1..2", 7, "'--1'"),
            ("box Y -..2", 7, "'-'"),
            ("box Y 0x1..2", 7, "'0x1'"),
            ("box Z 987.41..990.0", 7, &format!("'987.41'{whole}")),
            ("box Z 1e3..2", 7, "'1e3'"),
        ],
    );
    mistaken(
        "expected the high stored value behind the '..', from -2147483648 to 2147483647, found ",
        &[
            ("box X 5..", 10, "nothing"),
            ("box X 5..#6", 10, "nothing"),
            ("box X 0.. 10", 10, "nothing"),
            ("box X 5..2147483648", 10, "'2147483648'"),
            ("box X 5..-2147483649", 10, "'-2147483649'"),
            ("box X 5..+6", 10, "'+6'"),
            ("box X 5..6,", 10, "'6,'"),
            ("box X 5..=6", 10, "'=6'"),
            ("box X 987..990.5", 12, &format!("'990.5'{whole}")),
            ("box X 5...6", 10, &format!("'.6'{whole}")),
            ("box X 0..1..2", 10, &format!("'1..2'{whole}")),
        ],
    );
}

#[test]
fn low_values_above_high_ones() {
    mistaken(
        "expected the low value before the high one, ",
        &[
            ("box X 5..3", 7, "'3..5', found '5..3'"),
            ("box X 0..1 Y 0..-1", 14, "'-1..0', found '0..-1'"),
            (
                "box Z 2147483647..-2147483648",
                7,
                "'-2147483648..2147483647', found '2147483647..-2147483648'",
            ),
        ],
    );
}

/// The text is as strict as the library's check, so that the sheet of a good one passes.
#[test]
fn at_most_64_lines() {
    let full = "box X 1..2\n".repeat(64);
    assert_eq!(Sheet::from_text(&full).unwrap().lines().count(), 64);
    let mistake = Sheet::from_text(format!("{full}box X 1..2")).unwrap_err();
    assert_eq!((mistake.line(), mistake.column()), (65, 1));
    assert_eq!(mistake.words(), "expected at most 64 lines, found another");
}

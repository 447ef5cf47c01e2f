//! Which classes a line holds: those from its lowest to its highest, of all 256, with no flags in them.

use compare::compared::Compared;
use compare::spec::{BoxSpec, LineSpec, SheetSpec};

use super::table::{ask, held_by, held_by_none, line};

/// The lowest and the highest class of a line, a class, and whether the line holds it.
const HELD: [(u8, u8, u8, bool); 26] = [
    (5, 9, 4, false),
    (5, 9, 5, true),
    (5, 9, 9, true),
    (5, 9, 10, false),
    (2, 2, 1, false),
    (2, 2, 2, true),
    (2, 2, 3, false),
    (0, 0, 0, true),
    (0, 0, 1, false),
    (255, 255, 254, false),
    (255, 255, 255, true),
    (0, 255, 0, true),
    (0, 255, 128, true),
    (0, 255, 255, true),
    // No flag is taken off a class: 34, 66 and 130 are not 2, and 8 is not 40.
    (2, 2, 34, false),
    (2, 2, 66, false),
    (2, 2, 130, false),
    (66, 66, 66, true),
    (66, 66, 2, false),
    (40, 50, 40, true),
    (40, 50, 8, false),
    (40, 50, 51, false),
    (31, 32, 32, true),
    (20, 200, 200, true),
    (20, 200, 201, false),
    (0, 31, 32, false),
];

#[test]
fn a_line_between_two_others_holds_what_is_written_here() {
    let mut compared = Compared::new();
    for (low, high, class, held) in HELD {
        for other in ['r', 'b'] {
            let lines = [line(other), LineSpec::Classes(low, high), line(other)];
            let case = format!("{low} to {high}, class {class}");
            compared.case(&case);
            let answer = ask(&mut compared, &SheetSpec::new(lines).bytes(), class);
            let due = if held { held_by(2) } else { held_by_none(3) };
            assert_eq!(answer, due, "{case}");
        }
    }
}

/// Asks about every class; the line that holds it is known for each.
fn assert_each_held(lines: Vec<LineSpec>, line_of: impl Fn(u8) -> usize) {
    let mut compared = Compared::new();
    let sheet = SheetSpec::new(lines).bytes();
    for class in 0..=255 {
        compared.case(format!("class {class}"));
        let answer = ask(&mut compared, &sheet, class);
        assert_eq!(answer, held_by(line_of(class)), "class {class}");
    }
}

/// Lines for 0 to 3, 4 to 7 and so on up to 252 to 255.
fn fours() -> Vec<LineSpec> {
    let four = |line: u8| LineSpec::Classes(4 * line, 4 * line + 3);
    (0..64).map(four).collect()
}

#[test]
fn each_of_64_lines_answers_for_its_own_four_classes() {
    let upwards = fours();
    let downwards = fours().into_iter().rev().collect();
    assert_each_held(upwards, |class| usize::from(class / 4) + 1);
    assert_each_held(downwards, |class| 64 - usize::from(class / 4));
}

/// Lines for 63 to 192, 62 to 193 and so on, each with one class more on both sides, up to 0 to 255.
fn growing() -> Vec<LineSpec> {
    let wider = |more: u8| LineSpec::Classes(63 - more, 192 + more);
    (0..64).map(wider).collect()
}

#[test]
fn of_lines_that_hold_more_and_more_classes_the_first_with_the_class_answers() {
    let shrinking = growing().into_iter().rev().collect();
    assert_each_held(growing(), |class| match class {
        0..63 => 64 - usize::from(class),
        63..=192 => 1,
        193.. => usize::from(class) - 191,
    });
    assert_each_held(shrinking, |_| 1);
}

#[test]
fn an_empty_sheet_one_for_records_and_one_of_boxes_hold_no_class() {
    let mut compared = Compared::new();
    let records = SheetSpec::new([line('r'), line('r')]).bytes();
    let whole = LineSpec::Box(BoxSpec::WHOLE);
    let boxes = SheetSpec::new([line('b'), whole, line('b')]).bytes();
    for class in 0..=255 {
        compared.case(format!("class {class}"));
        assert_eq!(ask(&mut compared, &[], class), held_by_none(0));
        assert_eq!(ask(&mut compared, &records, class), held_by_none(2));
        assert_eq!(ask(&mut compared, &boxes, class), held_by_none(3));
    }
}

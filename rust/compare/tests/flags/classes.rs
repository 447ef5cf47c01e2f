//! Classes on a sheet, asked about by themselves: each of the 256 is a class, and has no flags in it.

use compare::compared::Compared;

use super::table::SHEETS;

#[test]
fn a_sheet_holds_the_classes_of_its_lines_above_31_too() {
    let mut compared = Compared::new();
    let mut reached = [0; 2];
    for on_sheet in SHEETS {
        for (sheet, _) in on_sheet.sheets() {
            for class in 0..=255 {
                let case = format!("{:?}, class {class}", on_sheet.lines);
                compared.case(&case);
                let answer = compared.class_kept(&sheet, class);
                let due = u64::from(on_sheet.holds(class));
                assert_eq!((answer.number, answer.kept), (0, due), "{case}");
                reached[due as usize] += 1;
            }
        }
    }
    assert!(reached.iter().all(|&times| times > 1000), "{reached:?}");
}

/// A line's classes, a class, and whether the line holds it.
const HELD: [(u8, u8, u8, u64); 16] = [
    (2, 2, 2, 1),
    (2, 2, 34, 0),
    (2, 2, 66, 0),
    (2, 2, 130, 0),
    (66, 66, 66, 1),
    (66, 66, 2, 0),
    (40, 50, 40, 1),
    (40, 50, 8, 0),
    (40, 50, 72, 0),
    (31, 32, 32, 1),
    (31, 32, 0, 0),
    (128, 255, 130, 1),
    (128, 255, 2, 0),
    (20, 200, 200, 1),
    (20, 200, 201, 0),
    (0, 31, 255, 0),
];

#[test]
fn classes_are_held_as_it_is_written_here() {
    let mut compared = Compared::new();
    for (low, high, class, kept) in HELD {
        let sheet = [0x4B, 0x53, 1, low, high];
        let answer = compared.class_kept(&sheet, class);
        assert_eq!(answer.kept, kept, "{low} to {high}, class {class}");
    }
}

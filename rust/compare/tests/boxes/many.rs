//! Many boxes, up to the 64 lines that a sheet may have.

use compare::answers::{ClassLine, Line};
use compare::compared::Compared;
use compare::rng::{FIXED_SEED, Rng};
use compare::sheet_calls::call_all;
use compare::spec::{BoxSpec, LAYOUTS, LineSpec, SheetSpec, Stored};

use super::table::{CLASS, assert_kept, file};

/// Boxes beside the line for the class, as many as there is room for.
const MOST: usize = 63;

/// A box of one place that has a number.
fn numbered(number: usize) -> LineSpec {
    LineSpec::Box(BoxSpec::of_one(place(number)))
}

fn place(number: usize) -> Stored {
    [number as i32, 1000 - number as i32, -(number as i32)]
}

/// These boxes, with the line for the class in front of so many lines.
fn with_class(mut boxes: Vec<LineSpec>, before: usize) -> SheetSpec {
    let at = boxes.len() - before;
    boxes.insert(at, LineSpec::Classes(CLASS, CLASS));
    SheetSpec::new(boxes)
}

#[test]
fn of_63_boxes_each_keeps_what_it_holds() {
    let (mut rng, mut compared) = (Rng::new(FIXED_SEED), Compared::new());
    // A point in each box, in another order than the boxes, and one in none behind each.
    let numbers: Vec<usize> = (0..2 * MOST).rev().collect();
    let places: Vec<Stored> = numbers.iter().map(|&number| place(number)).collect();
    let due: Vec<bool> = numbers.iter().map(|number| number % 2 == 1).collect();
    let boxes: Vec<LineSpec> = (0..MOST).map(|index| numbered(2 * index + 1)).collect();
    for layout in LAYOUTS {
        let spec = file(&mut rng, layout, &places);
        for before in [0, 1, 31, 62, MOST] {
            compared.case(format!("{layout:?}, the class in front of {before}"));
            let sheet = with_class(boxes.clone(), before);
            assert_eq!(sheet.lines.len(), 64);
            assert_kept(&mut compared, &mut rng, &spec, &sheet, &due);
        }
    }
}

#[test]
fn the_one_box_that_keeps_may_stand_on_any_line() {
    let (mut rng, mut compared) = (Rng::new(FIXED_SEED), Compared::new());
    for (format, count) in [(0, MOST), (1, MOST), (2, 17), (3, 2)] {
        let spec = file(&mut rng, (format, 3), &[place(7), place(8), place(7)]);
        for keeping in 0..count {
            let number = |index: usize| if index == keeping { 7 } else { 9 + index };
            let boxes: Vec<LineSpec> = (0..count).map(|index| numbered(number(index))).collect();
            for before in [0, count / 2, count] {
                compared.case(format!(
                    "box {keeping} of {count}, the class in front of {before}"
                ));
                let sheet = with_class(boxes.clone(), before);
                let due = [true, false, true];
                assert_kept(&mut compared, &mut rng, &spec, &sheet, &due);
            }
        }
    }
}

#[test]
fn with_64_boxes_there_is_no_line_for_a_class_and_no_point_is_kept() {
    let (mut rng, mut compared) = (Rng::new(FIXED_SEED), Compared::new());
    let boxes: Vec<LineSpec> = (0..64).map(numbered).collect();
    let sheet = SheetSpec::new(boxes);
    let places: Vec<Stored> = (0..70).map(place).collect();
    for layout in LAYOUTS {
        let spec = file(&mut rng, layout, &places);
        assert_kept(&mut compared, &mut rng, &spec, &sheet, &[false; 70]);
    }
    let all = ClassLine {
        number: 0,
        kept: 0,
        lines: 64,
    };
    assert_eq!(compared.class_test(&sheet.bytes(), CLASS), all);
}

#[test]
fn a_65th_line_gives_24_wherever_it_ends() {
    let mut compared = Compared::new();
    let full = with_class((0..MOST).map(numbered).collect(), 0);
    let only_boxes = SheetSpec::new(vec![numbered(0); 64]);
    let reversed = LineSpec::Box(BoxSpec::new([1; 3], [0; 3])).bytes();
    for sheet in [full, only_boxes].map(|sheet| sheet.bytes()) {
        assert_eq!(call_all(&mut compared, &sheet), 0);
        for line in [
            numbered(1).bytes(),
            reversed.clone(),
            b"KT\x03".to_vec(),
            vec![0; 30],
        ] {
            for length in 1..=line.len() {
                compared.case(format!("64 lines, then {:?}", &line[..length]));
                let begun = [&sheet, &line[..length]].concat();
                assert_eq!(call_all(&mut compared, &begun), 24);
            }
        }
    }
}

#[test]
fn a_list_of_many_boxes_names_the_points_in_the_order_of_the_file() {
    let (mut rng, mut compared) = (Rng::new(FIXED_SEED), Compared::new());
    let spec = file(&mut rng, (0, 0), &[place(3), place(1), place(60), place(2)]);
    let sheet = with_class((0..MOST).map(numbered).collect(), 1).bytes();
    let line = |index: u64| Line {
        place: spec.point_offset() as u64 + 20 * index,
        length: 20,
    };
    let (answer, list) = compared.cutting_list(&spec.bytes(), &sheet, &[Line::default(); 4]);
    assert_eq!((answer.number, answer.lines), (0, 4));
    assert_eq!(list, [0, 1, 2, 3].map(line));
}

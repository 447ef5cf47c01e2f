//! A sheet with a box written byte by byte, and all that a release under it says.

use compare::answers::{ClassLine, Released};
use compare::compared::Compared;
use compare::spec::{FileSpec, put_place};

/// Class 2, in a box with X from -1 to 300, Y from 256 to 65536 and Z from -2^31 to -7.
const SHEET: [u8; 32] = [
    0x4B, 0x53, 1, 2, 2, 0x4B, 0x53, 3, 0xFF, 0xFF, 0xFF, 0xFF, 0x2C, 0x01, 0, 0, 0, 1, 0, 0, 0, 0,
    1, 0, 0, 0, 0, 0x80, 0xF9, 0xFF, 0xFF, 0xFF,
];

/// A point of format 0 of this class and return number.
fn point(place: [i32; 3], classification: u8, return_number: u8) -> Vec<u8> {
    let mut point = vec![0; 20];
    put_place(&mut point, place);
    point[14] = return_number;
    point[15] = classification;
    point
}

/// Points inside, beside the box on each axis, and inside but of another class or withheld.
fn file() -> FileSpec {
    FileSpec {
        scale: [0.5, 0.25, 1.0],
        offset: [10.0, 0.0, -1.0],
        points: vec![
            point([-1, 256, -7], 2, 1),
            point([-2, 256, -7], 2, 1),
            point([301, 256, -7], 2, 2),
            point([300, 65536, i32::MIN], 2, 3),
            point([0, 255, -8], 2, 4),
            point([0, 65537, -8], 2, 4),
            point([0, 300, -6], 2, 5),
            point([0, 300, i32::MAX], 2, 5),
            point([0, 300, -8], 3, 1),
            point([0, 300, -8], 0x82, 1),
            point([7, 1024, -1000], 0x42, 3),
        ],
        ..FileSpec::bare(0)
    }
}

#[test]
fn the_release_has_the_points_counts_bins_and_bounds_that_are_written_here() {
    let (spec, mut compared) = (file(), Compared::new());
    let (answer, out) = compared.release(&spec.bytes(), &SHEET, &[0xEE; 300]);
    let wanted = Released {
        number: 0,
        length: 287,
        points: 3,
        records: 0,
    };
    assert_eq!(answer, wanted);
    let kept = [0, 3, 10].map(|index: usize| spec.points[index].clone());
    assert_eq!(out[227..287], kept.concat());
    assert_eq!(out[107..111], [3, 0, 0, 0]);
    let bins: Vec<u8> = out[111..131].iter().copied().step_by(4).collect();
    assert_eq!(bins, [1, 0, 2, 0, 0]);
    let bounds = [160.0, 9.5, 16_384.0, 64.0, -8.0, -2_147_483_649.0];
    assert_eq!(out[179..227], bounds.map(f64::to_le_bytes).concat());
    let (too_short, _) = compared.release(&spec.bytes(), &SHEET, &[0xEE; 286]);
    assert_eq!((too_short.number, too_short.length), (30, 287));
}

#[test]
fn the_sheet_answers_about_classes_as_it_is_written_here() {
    let mut compared = Compared::new();
    assert_eq!(compared.check_sheet(&SHEET), 0);
    for (class, kept, lines) in [(2, 1, 1), (3, 0, 2), (0, 0, 2), (255, 0, 2)] {
        let wanted = ClassLine {
            number: 0,
            kept,
            lines,
        };
        assert_eq!(compared.class_test(&SHEET, class), wanted);
    }
    let behind = [&SHEET[5..], &SHEET[..5]].concat();
    assert_eq!(compared.class_test(&behind, 2).lines, 2);
    assert_eq!(compared.check_sheet(&SHEET[..31]), 22);
    let mut reversed = SHEET;
    reversed[27] = 0;
    assert_eq!(compared.check_sheet(&reversed), 23);
}

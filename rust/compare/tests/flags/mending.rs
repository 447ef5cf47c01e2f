//! A mending counts every point, withheld ones too.

use compare::compared::Compared;
use compare::damage::{MENDED, POINT_COUNT};
use compare::rng::{Rng, seeds};
use compare::spec::{CLASSIFICATION, FileSpec, LAYOUTS, SheetSpec};

use super::table::every_byte;

/// The fields that a mending sets, and a release too.
fn fields(file: &[u8]) -> [u64; 12] {
    MENDED.map(|field| field.get(file))
}

#[test]
fn every_point_counts_whatever_its_classification_byte_is() {
    for seed in seeds() {
        let (mut rng, mut compared) = (Rng::new(seed), Compared::new());
        for layout in LAYOUTS {
            let spec = every_byte(&mut rng, layout);
            let mut unflagged = spec.clone();
            for point in &mut unflagged.points {
                point[CLASSIFICATION] = 0;
            }
            compared.case(format!("seed {seed}, {layout:?}"));
            for stated in [0, 1, 200, 256, 257, u32::MAX.into()] {
                let [one, other] = [&spec, &unflagged].map(|spec| {
                    let file = POINT_COUNT.with(&spec.bytes(), stated);
                    compared.mend(&file)
                });
                assert_eq!((one.0.number, one.0.marks), (0, other.0.marks));
                assert_eq!(fields(&one.1), fields(&other.1));
                assert_eq!(POINT_COUNT.get(&one.1), stated.min(256));
            }
        }
    }
}

#[test]
fn withheld_points_are_in_the_mended_bins_and_bounds_and_in_no_released_ones() {
    let point = |xyz: [i32; 3], returns: u8, byte: u8| {
        let mut point = xyz.map(i32::to_le_bytes).concat();
        point.extend([0, 0, returns, byte, 0, 0, 0, 0]);
        point
    };
    let spec = FileSpec {
        scale: [0.5, 1.0, 2.0],
        offset: [10.0, 0.0, -1.0],
        points: vec![
            point([90, -7, 0], 2, 130),
            point([-5, 3, 4], 1, 66),
            point([-100, 8, -6], 5, 0xE2),
        ],
        ..FileSpec::bare(0)
    };
    let mut compared = Compared::new();
    let (answer, mended) = compared.mend(&POINT_COUNT.with(&spec.bytes(), 9));
    assert_eq!((answer.number, answer.marks[0]), (0, 1));
    let all = [55.0, -40.0, 8.0, -7.0, 7.0, -13.0].map(f64::to_bits);
    assert_eq!(fields(&mended)[..6], [3, 1, 1, 0, 0, 1]);
    assert_eq!(fields(&mended)[6..], all);
    let sheet = SheetSpec::all_classes().bytes();
    let (_, out) = compared.release(&mended, &sheet, &[0xEE; 247]);
    let one = [7.5, 7.5, 3.0, 3.0, 7.0, 7.0].map(f64::to_bits);
    assert_eq!(fields(&out)[..6], [1, 1, 0, 0, 0, 0]);
    assert_eq!(fields(&out)[6..], one);
}

//! Several boxes: a point is kept in any of them, whether they overlap, touch or lie apart.

use compare::compared::Compared;
use compare::rng::{FIXED_SEED, Rng};
use compare::spec::{BoxSpec, LAYOUTS, Stored};

use super::table::{assert_kept, file, sheet};

/// The ranges of boxes on one axis, and which of the values 0 to 9 lie in one of them.
type Written = (&'static [(i32, i32)], &'static [usize]);

const RANGES: [Written; 14] = [
    (&[(0, 9)], &[0, 1, 2, 3, 4, 5, 6, 7, 8, 9]),
    (&[(5, 5)], &[5]),
    // Overlapping, in both orders.
    (&[(2, 4), (3, 6)], &[2, 3, 4, 5, 6]),
    (&[(3, 6), (2, 4)], &[2, 3, 4, 5, 6]),
    // One in another, and the same twice.
    (&[(1, 8), (3, 5)], &[1, 2, 3, 4, 5, 6, 7, 8]),
    (&[(3, 5), (1, 8)], &[1, 2, 3, 4, 5, 6, 7, 8]),
    (&[(3, 5), (3, 5)], &[3, 4, 5]),
    // With an end in common, side by side, and with a gap.
    (&[(2, 4), (4, 6)], &[2, 3, 4, 5, 6]),
    (&[(2, 4), (5, 6)], &[2, 3, 4, 5, 6]),
    (&[(2, 3), (6, 7)], &[2, 3, 6, 7]),
    (&[(0, 0), (9, 9)], &[0, 9]),
    (&[(7, 9), (0, 2), (1, 3)], &[0, 1, 2, 3, 7, 8, 9]),
    (&[(2, 2), (4, 4), (6, 6), (8, 8)], &[2, 4, 6, 8]),
    // Beyond all values, and one that holds some.
    (&[(-9, -1), (10, 19), (4, 30)], &[4, 5, 6, 7, 8, 9]),
];

#[test]
fn ranges_on_one_axis_keep_the_values_that_are_written_here() {
    let (mut rng, mut compared) = (Rng::new(FIXED_SEED), Compared::new());
    for axis in 0..3 {
        // On the other axes all boxes are from 3 to 4, and all points at 3 or 4.
        let on_axis = |value: i32, other: i32| {
            let mut place = [other; 3];
            place[axis] = value;
            place
        };
        let places: Vec<Stored> = (0..10).map(|value| on_axis(value, 3 + value % 2)).collect();
        for (ranges, kept) in RANGES {
            let boxed = |&(low, high): &(i32, i32)| BoxSpec::new(on_axis(low, 3), on_axis(high, 4));
            let boxes: Vec<BoxSpec> = ranges.iter().map(boxed).collect();
            let due: Vec<bool> = (0..10).map(|value| kept.contains(&value)).collect();
            for layout in LAYOUTS {
                compared.case(format!("{layout:?}, axis {axis}, {ranges:?}"));
                let spec = file(&mut rng, layout, &places);
                assert_kept(&mut compared, &mut rng, &spec, &sheet(&boxes), &due);
            }
        }
    }
}

/// All places whose values are each from 0 to 10.
fn all_places() -> Vec<Stored> {
    let place = |place: i32| [place / 121, place / 11 % 11, place % 11];
    (0..11 * 11 * 11).map(place).collect()
}

#[test]
fn a_place_whose_values_lie_in_differing_boxes_is_in_none() {
    let (mut rng, mut compared) = (Rng::new(FIXED_SEED), Compared::new());
    let boxes = [BoxSpec::new([0; 3], [4; 3]), BoxSpec::new([3; 3], [9; 3])];
    let all = all_places();
    let lowest = |place: &Stored| *place.iter().min().expect("three values");
    let highest = |place: &Stored| *place.iter().max().expect("three values");
    let is_due = |place: &Stored| highest(place) <= 4 || lowest(place) >= 3 && highest(place) <= 9;
    let due: Vec<bool> = all.iter().map(is_due).collect();
    for (place, wanted) in [
        ([0, 4, 4], true),
        ([9, 3, 3], true),
        ([0, 9, 4], false),
        ([9, 0, 3], false),
    ] {
        assert_eq!(is_due(&place), wanted, "{place:?}");
    }
    // 5^3 in the first, 7^3 in the second, 2^3 in both.
    assert_eq!(due.iter().filter(|due| **due).count(), 125 + 343 - 8);
    for layout in LAYOUTS {
        compared.case(format!("{layout:?}"));
        let spec = file(&mut rng, layout, &all);
        assert_kept(&mut compared, &mut rng, &spec, &sheet(&boxes), &due);
        let [first, second] = boxes;
        assert_kept(
            &mut compared,
            &mut rng,
            &spec,
            &sheet(&[second, first]),
            &due,
        );
    }
}

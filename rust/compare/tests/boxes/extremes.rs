//! The ends of the range of stored values, and values around 0, as edges of boxes and as points. Which of two values is
//! lower goes by their places in a table, so that no comparison of numbers is shared with what is tested.

use compare::compared::Compared;
use compare::rng::{FIXED_SEED, Rng, seeds};
use compare::spec::{BoxSpec, LAYOUTS, Stored};

use super::table::{assert_kept, file, sheet};

/// Values in rising order.
const VALUES: [i32; 8] = [
    -2_147_483_648,
    -2_147_483_647,
    -256,
    -1,
    0,
    255,
    2_147_483_646,
    2_147_483_647,
];

/// The lowest and the highest, by their places in the table.
const ENDS: Range = (0, VALUES.len() - 1);

/// A range, by the places of its ends in the table.
type Range = (usize, usize);

fn ranges() -> Vec<Range> {
    let from = |low: usize| (low..VALUES.len()).map(move |high| (low, high));
    (0..VALUES.len()).flat_map(from).collect()
}

/// The box of a range on each axis.
fn boxed(ranges: [Range; 3]) -> BoxSpec {
    BoxSpec::new(
        ranges.map(|(low, _)| VALUES[low]),
        ranges.map(|(_, high)| VALUES[high]),
    )
}

/// Whether a place, by the table, is in the ranges of all axes.
fn within(ranges: [Range; 3], place: [usize; 3]) -> bool {
    let mut axes = ranges.into_iter().zip(place);
    axes.all(|((low, high), at)| low <= at && at <= high)
}

fn stored(place: [usize; 3]) -> Stored {
    place.map(|at| VALUES[at])
}

#[test]
fn each_range_on_one_axis_keeps_the_values_from_its_low_to_its_high_end() {
    let (mut rng, mut compared) = (Rng::new(FIXED_SEED), Compared::new());
    for axis in 0..3 {
        for range in ranges() {
            let mut ranges = [ENDS; 3];
            ranges[axis] = range;
            let places = (0..VALUES.len()).map(|at| {
                let mut place = [(); 3].map(|()| rng.below(VALUES.len()));
                place[axis] = at;
                place
            });
            let places: Vec<[usize; 3]> = places.collect();
            let due: Vec<bool> = (0..VALUES.len())
                .map(|at| range.0 <= at && at <= range.1)
                .collect();
            let stored: Vec<Stored> = places.into_iter().map(stored).collect();
            for layout in LAYOUTS {
                compared.case(format!("axis {axis}, {range:?}, {layout:?}"));
                let spec = file(&mut rng, layout, &stored);
                assert_kept(
                    &mut compared,
                    &mut rng,
                    &spec,
                    &sheet(&[boxed(ranges)]),
                    &due,
                );
            }
        }
    }
}

/// Every place that the table has.
fn all_places() -> Vec<[usize; 3]> {
    let places = 0..VALUES.len().pow(3);
    places
        .map(|place| [place / 64, place / 8 % 8, place % 8])
        .collect()
}

#[test]
fn ranges_on_all_axes_keep_the_places_that_all_of_them_hold() {
    for seed in seeds() {
        let (mut rng, mut compared) = (Rng::new(seed), Compared::new());
        let all = all_places();
        let stored: Vec<Stored> = all.iter().copied().map(stored).collect();
        for layout in LAYOUTS {
            let spec = file(&mut rng, layout, &stored);
            for _ in 0..30 {
                let ranges = [(); 3].map(|()| rng.pick(&ranges()));
                compared.case(format!("seed {seed}, {layout:?}, {ranges:?}"));
                let due: Vec<bool> = all.iter().map(|&place| within(ranges, place)).collect();
                assert_kept(
                    &mut compared,
                    &mut rng,
                    &spec,
                    &sheet(&[boxed(ranges)]),
                    &due,
                );
            }
        }
    }
}

#[test]
fn a_box_of_one_corner_of_the_range_keeps_that_corner_alone() {
    let (mut rng, mut compared) = (Rng::new(FIXED_SEED), Compared::new());
    let corner = |corner: usize| [corner & 1, corner >> 1 & 1, corner >> 2].map(|high| 7 * high);
    let corners: Vec<Stored> = (0..8).map(corner).map(stored).collect();
    for (index, &place) in corners.iter().enumerate() {
        let due: Vec<bool> = (0..8).map(|other| other == index).collect();
        for layout in LAYOUTS {
            compared.case(format!("{layout:?}, {place:?}"));
            let spec = file(&mut rng, layout, &corners);
            let alone = sheet(&[BoxSpec::of_one(place)]);
            assert_kept(&mut compared, &mut rng, &spec, &alone, &due);
        }
    }
    let spec = file(&mut rng, (0, 0), &corners);
    let whole = sheet(&[BoxSpec::WHOLE]);
    assert_kept(&mut compared, &mut rng, &spec, &whole, &[true; 8]);
}

//! Boxes in ranges of every width, and places at and beside each end and each 64th of the range: wherever a release may
//! cut the range of all boxes into parts, some of these places stand on both sides of a cut.

use compare::compared::Compared;
use compare::rng::{FIXED_SEED, Rng};
use compare::spec::{BoxSpec, Stored};

use super::table::{assert_kept, file, sheet};

/// From the lowest low to the highest high, on one axis.
fn widths() -> Vec<i64> {
    let around = |power: u32| [-1, 0, 1].map(|more| (1i64 << power) + more);
    let mut widths: Vec<i64> = (1..32).flat_map(around).collect();
    widths.extend([0, u32::MAX as i64 - 1, u32::MAX as i64]);
    widths
}

/// The ranges of boxes on one axis: one at each end, one in the middle, and two that overlap there.
fn ranges(begin: i64, width: i64) -> [(i64, i64); 5] {
    let at = |part: i64| begin + part * width / 12;
    [(0, 0), (12, 12), (5, 6), (3, 5), (4, 9)].map(|(low, high)| (at(low), at(high)))
}

/// Values at each end of these ranges and beside it, and at 65 places between the first low and the last high.
fn values(ranges: &[(i64, i64)], begin: i64, width: i64) -> Vec<i32> {
    let ends = ranges.iter().flat_map(|&(low, high)| [low, high]);
    let cuts = (0..=64).map(|cut| begin + cut * width / 64);
    let beside = ends
        .chain(cuts)
        .flat_map(|value| [value - 1, value, value + 1]);
    beside.filter_map(|value| value.try_into().ok()).collect()
}

#[test]
fn values_at_every_end_and_beside_it_are_kept_in_ranges_of_every_width() {
    let (mut rng, mut compared) = (Rng::new(FIXED_SEED), Compared::new());
    for (index, width) in widths().into_iter().enumerate() {
        let most = i32::MAX as i64 - width;
        let axis = index % 3;
        for begin in [i32::MIN as i64, most, most.min(-7)] {
            if begin < i32::MIN as i64 {
                continue;
            }
            let on_axis = |value: i32, other: i32| -> Stored {
                let mut place = [other; 3];
                place[axis] = value;
                place
            };
            let ranges = ranges(begin, width);
            let boxed = |(low, high): (i64, i64)| {
                BoxSpec::new(on_axis(low as i32, 3), on_axis(high as i32, 4))
            };
            let boxes = ranges.map(boxed);
            let values = values(&ranges, begin, width);
            let in_one = |value: i32| {
                let value = value as i64;
                ranges
                    .iter()
                    .any(|&(low, high)| low <= value && value <= high)
            };
            let due: Vec<bool> = values.iter().map(|&value| in_one(value)).collect();
            let places: Vec<Stored> = values.iter().map(|&value| on_axis(value, 3)).collect();
            compared.case(format!("axis {axis}, {width} from {begin} on"));
            let spec = file(&mut rng, (0, 0), &places);
            assert_kept(&mut compared, &mut rng, &spec, &sheet(&boxes), &due);
        }
    }
}

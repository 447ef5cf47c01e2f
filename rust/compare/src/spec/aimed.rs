//! Sheets whose boxes are aimed at the points of a file, so that both points inside and points outside are frequent.

use super::boxes::{BoxSpec, Stored, place_of};
use super::file::FileSpec;
use super::sheet::{LineSpec, MOST_LINES, SheetSpec};
use crate::rng::Rng;

/// The most boxes that are aimed at points of one file.
const MOST_AIMED: usize = 3;

impl BoxSpec {
    /// A box that holds a place, often by a face, an edge or a corner.
    pub fn around(rng: &mut Rng, place: Stored) -> Self {
        if rng.chance(15) {
            return Self::of_one(place);
        }
        let ranges = place.map(|value| range_around(rng, value));
        Self::new(ranges.map(|(low, _)| low), ranges.map(|(_, high)| high))
    }

    /// A box that misses a place by one step on one axis.
    pub fn beside(rng: &mut Rng, place: Stored) -> Self {
        let mut beside = Self::around(rng, place);
        let axis = rng.below(3);
        let (low, high) = (&mut beside.low[axis], &mut beside.high[axis]);
        match place[axis] {
            value if value == i32::MIN || value < i32::MAX && rng.chance(50) => {
                *low = value + 1;
                *high = (*high).max(*low);
            }
            value => {
                *high = value - 1;
                *low = (*low).min(*high);
            }
        }
        beside
    }
}

/// A range that holds a value; it is often whole, often of that value alone, and often ends at it.
fn range_around(rng: &mut Rng, value: i32) -> (i32, i32) {
    if rng.chance(40) {
        return (i32::MIN, i32::MAX);
    }
    let low = match rng.below(4) {
        0 => i32::MIN,
        1 => value.saturating_sub(1),
        2 => value_from_to(rng, i32::MIN, value),
        _ => value,
    };
    let high = match rng.below(4) {
        0 => i32::MAX,
        1 => value.saturating_add(1),
        2 => value_from_to(rng, value, i32::MAX),
        _ => value,
    };
    (low, high)
}

/// Any value from `low` to `high`, both included.
pub fn value_from_to(rng: &mut Rng, low: i32, high: i32) -> i32 {
    let more = (i64::from(high) - i64::from(low)) as u64;
    let value = i64::from(low) + (rng.next() % (more + 1)) as i64;
    i32::try_from(value).expect("it is between two that fit")
}

impl SheetSpec {
    /// A sheet that passes, often with boxes around points of the file or just beside them.
    pub fn random_for(rng: &mut Rng, file: &FileSpec) -> Self {
        let mut sheet = Self::random(rng);
        if file.points.is_empty() || rng.chance(40) {
            return sheet;
        }
        sheet.lines.truncate(MOST_LINES - MOST_AIMED - 1);
        for _ in 0..rng.from_to(1, MOST_AIMED) {
            let place = place_of(&rng.pick(&file.points));
            let aim = if rng.chance(70) {
                BoxSpec::around
            } else {
                BoxSpec::beside
            };
            let aimed = aim(rng, place);
            sheet.insert_anywhere(rng, LineSpec::Box(aimed));
        }
        if rng.chance(50) {
            sheet.insert_anywhere(rng, LineSpec::Classes(0, 31));
        }
        sheet
    }

    /// Puts a line anywhere among the others.
    pub fn insert_anywhere(&mut self, rng: &mut Rng, line: LineSpec) {
        let place = rng.from_to(0, self.lines.len());
        self.lines.insert(place, line);
    }
}

#[cfg(test)]
mod tests {
    use super::*;
    use crate::rng::FIXED_SEED;
    use crate::spec::ByBoxes;

    /// Places at the ends of the range, beside them, and within.
    const PLACES: [Stored; 4] = [
        [i32::MIN, i32::MAX, 0],
        [i32::MAX, i32::MIN, -1],
        [i32::MIN + 1, i32::MAX - 1, 7],
        [-300, 0, 65536],
    ];

    #[test]
    fn boxes_around_a_place_hold_it_and_those_beside_it_miss_it_by_one_step() {
        let mut rng = Rng::new(FIXED_SEED);
        for place in PLACES.into_iter().cycle().take(4000) {
            let around = BoxSpec::around(&mut rng, place);
            assert!(around.holds(place) && !around.is_reversed(), "{around:?}");
            let beside = BoxSpec::beside(&mut rng, place);
            assert!(!beside.is_reversed(), "{beside:?}");
            assert_eq!(beside.steps_off(place), 1, "{beside:?}");
        }
    }

    #[test]
    fn values_from_one_to_another_are_all_there_and_no_others() {
        let mut rng = Rng::new(FIXED_SEED);
        let values: Vec<i32> = (0..1000).map(|_| value_from_to(&mut rng, -2, 1)).collect();
        assert!((-2..=1).all(|value| values.contains(&value)));
        assert!(values.iter().all(|value| (-2..=1).contains(value)));
        assert_eq!(value_from_to(&mut rng, i32::MAX, i32::MAX), i32::MAX);
    }

    #[test]
    fn boxes_aimed_at_a_file_often_keep_points_and_often_drop_them() {
        let mut rng = Rng::new(FIXED_SEED);
        let mut counts = [0; 2];
        for _ in 0..1000 {
            let file = FileSpec::random(&mut rng);
            let sheet = SheetSpec::random_for(&mut rng, &file);
            assert!(sheet.lines.len() <= MOST_LINES);
            for point in &file.points {
                counts[0] += u32::from(sheet.by_boxes(point) == Some(ByBoxes::Kept));
                counts[1] += u32::from(sheet.by_boxes(point) == Some(ByBoxes::Dropped));
            }
        }
        assert!(counts.iter().all(|&count| count > 1000), "{counts:?}");
    }
}

//! Counts and extremes of points.

use crate::bytes::i32_at;
use crate::point::RETURNS_PLACE;
use crate::scaling::{Bounds, Scaling};

/// The running counts and stored extremes, updated point by point.
#[derive(Debug, Clone, Copy)]
pub struct Tally {
    by_return_number: [u32; 8],
    max: [i32; 3],
    min: [i32; 3],
}

impl Tally {
    /// The tally of no points.
    pub fn new() -> Self {
        Self {
            by_return_number: [0; 8],
            max: [i32::MIN; 3],
            min: [i32::MAX; 3],
        }
    }

    /// Adds one point's record.
    #[inline]
    pub fn add(&mut self, record: &[u8]) {
        self.by_return_number[usize::from(record[RETURNS_PLACE] & 7)] += 1;
        for axis in 0..3 {
            let stored = i32_at(record, 4 * axis);
            self.max[axis] = self.max[axis].max(stored);
            self.min[axis] = self.min[axis].min(stored);
        }
    }

    /// How many points were added.
    pub fn points(&self) -> u32 {
        self.by_return_number.iter().sum()
    }

    /// The five bins: return numbers 1 to 5; 0, 6 and 7 are in none.
    pub fn points_by_return(&self) -> [u32; 5] {
        std::array::from_fn(|bin| self.by_return_number[bin + 1])
    }

    /// The coordinates of the extremes; all +0.0 without points.
    pub fn bounds(&self, scaling: &Scaling) -> Bounds {
        if self.points() == 0 {
            return Bounds::default();
        }
        Bounds {
            max: scaling.coordinates(self.max),
            min: scaling.coordinates(self.min),
        }
    }
}

#[cfg(test)]
mod tests {
    use super::*;

    const UNIT: Scaling = Scaling {
        scale: [1.0; 3],
        offset: [0.0; 3],
    };

    fn record(xyz: [i32; 3], returns: u8) -> Vec<u8> {
        let mut record = xyz.map(i32::to_le_bytes).concat();
        record.resize(20, 0);
        record[RETURNS_PLACE] = returns;
        record
    }

    #[test]
    fn bins_count_return_numbers_and_not_numbers_of_returns() {
        let mut tally = Tally::new();
        for returns in [0o50, 0o51, 0o51, 0o55, 0o56, 0o57] {
            tally.add(&record([0; 3], returns));
        }
        assert_eq!(tally.points(), 6);
        assert_eq!(tally.points_by_return(), [2, 0, 0, 0, 1]);
    }

    #[test]
    fn extremes_do_not_start_at_zero() {
        let mut tally = Tally::new();
        tally.add(&record([-5, 5, -1], 1));
        tally.add(&record([-7, 9, 1], 1));
        let bounds = tally.bounds(&UNIT);
        assert_eq!(bounds.max, [-5.0, 9.0, 1.0]);
        assert_eq!(bounds.min, [-7.0, 5.0, -1.0]);
    }

    #[test]
    fn no_points_have_bounds_of_plus_zero() {
        let bounds = Tally::new().bounds(&UNIT);
        assert!(
            bounds
                .max
                .iter()
                .chain(&bounds.min)
                .all(|bound| bound.to_bits() == 0)
        );
    }
}

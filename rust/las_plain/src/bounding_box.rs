//! Boxes in stored values, which a sheet keeps points in.

use crate::bytes::i32_at;

/// The bytes of a box on a sheet: six stored values.
pub const BOX_SIZE: usize = 24;

/// An axis-aligned box in stored values, in the order X, Y, Z. Its faces belong to it.
#[derive(Debug, Clone, Copy, PartialEq, Eq)]
pub struct BoundingBox {
    pub low: [i32; 3],
    pub high: [i32; 3],
}

impl BoundingBox {
    /// Reads low X, high X, low Y, high Y, low Z, high Z.
    pub fn read(bytes: &[u8; BOX_SIZE]) -> Self {
        Self {
            low: std::array::from_fn(|axis| i32_at(bytes, 8 * axis)),
            high: std::array::from_fn(|axis| i32_at(bytes, 8 * axis + 4)),
        }
    }

    /// Whether low is above high on some axis.
    pub fn is_reversed(&self) -> bool {
        (0..3).any(|axis| self.low[axis] > self.high[axis])
    }

    /// Whether a point with these stored values X, Y, Z lies in the box.
    #[inline]
    pub fn contains(&self, stored: [i32; 3]) -> bool {
        (0..3).all(|axis| self.low[axis] <= stored[axis] && stored[axis] <= self.high[axis])
    }
}

#[cfg(test)]
mod tests {
    use super::*;
    use crate::sample::{SAMPLE_BOX, around_sample_box};

    /// The whole range of stored values on each axis.
    const WHOLE: BoundingBox = BoundingBox {
        low: [i32::MIN; 3],
        high: [i32::MAX; 3],
    };

    #[test]
    fn each_axis_has_its_low_before_its_high() {
        let values: [i32; 6] = [-10, -7, 20, 25, -5, 5];
        let bytes: Vec<u8> = values
            .iter()
            .flat_map(|value| value.to_le_bytes())
            .collect();
        assert_eq!(BoundingBox::read(bytes.first_chunk().unwrap()), SAMPLE_BOX);
    }

    #[test]
    fn values_are_little_endian_and_twos_complement() {
        let bytes = [0, 0, 0, 0x80, 0xFF, 0xFF, 0xFF, 0x7F].repeat(3);
        assert_eq!(BoundingBox::read(bytes.first_chunk().unwrap()), WHOLE);
        let minus_one_to_300 = [0xFF, 0xFF, 0xFF, 0xFF, 0x2C, 0x01, 0, 0].repeat(3);
        let read = BoundingBox::read(minus_one_to_300.first_chunk().unwrap());
        assert_eq!((read.low, read.high), ([-1; 3], [300; 3]));
    }

    #[test]
    fn faces_edges_and_corners_lie_in_a_box_and_one_beside_does_not() {
        for (stored, inside) in around_sample_box() {
            assert_eq!(SAMPLE_BOX.contains(stored), inside, "{stored:?}");
        }
    }

    #[test]
    fn the_whole_range_has_every_point() {
        for value in [i32::MIN, i32::MIN + 1, -1, 0, 1, i32::MAX - 1, i32::MAX] {
            assert!(WHOLE.contains([value; 3]), "{value}");
            assert!(WHOLE.contains([value, i32::MAX, i32::MIN]), "{value}");
        }
    }

    #[test]
    fn a_box_of_one_extreme_has_no_neighbour_and_not_the_other_extreme() {
        for (extreme, others) in [
            (i32::MIN, [i32::MIN + 1, 0, i32::MAX]),
            (i32::MAX, [i32::MAX - 1, 0, i32::MIN]),
        ] {
            let single = BoundingBox {
                low: [extreme; 3],
                high: [extreme; 3],
            };
            assert!(!single.is_reversed());
            assert!(single.contains([extreme; 3]));
            for (axis, other) in (0..3).flat_map(|axis| others.map(|other| (axis, other))) {
                let mut stored = [extreme; 3];
                stored[axis] = other;
                assert!(!single.contains(stored), "{stored:?}");
            }
        }
    }

    #[test]
    fn low_above_high_on_any_axis_is_reversed() {
        for axis in 0..3 {
            for (low, high, reversed) in [
                (5, 5, false),
                (5, 6, false),
                (6, 5, true),
                (-1, 0, false),
                (0, -1, true),
                (i32::MIN, i32::MAX, false),
                (i32::MAX, i32::MIN, true),
            ] {
                let mut bounding_box = SAMPLE_BOX;
                bounding_box.low[axis] = low;
                bounding_box.high[axis] = high;
                assert_eq!(bounding_box.is_reversed(), reversed, "{bounding_box:?}");
            }
        }
    }
}

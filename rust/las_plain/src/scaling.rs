//! Scales, offsets, and the coordinates and bounds made with them.

/// The smallest scale that passes, 2^-40.
const LOWEST_SCALE: f64 = 1.0 / HIGHEST_OFFSET;
/// The largest scale that passes, 2^20.
const HIGHEST_SCALE: f64 = (1u64 << 20) as f64;
/// The largest offset that passes, 2^40.
const HIGHEST_OFFSET: f64 = (1u64 << 40) as f64;

/// The three scales and three offsets of a file, in the order X, Y, Z.
#[derive(Debug, Clone, Copy, PartialEq)]
pub struct Scaling {
    pub scale: [f64; 3],
    pub offset: [f64; 3],
}

/// The largest and smallest coordinates, in the order X, Y, Z.
#[derive(Debug, Clone, Copy, PartialEq, Default)]
pub struct Bounds {
    pub max: [f64; 3],
    pub min: [f64; 3],
}

impl Scaling {
    /// Whether every scale is from 2^-40 to 2^20 and every offset from -2^40 to 2^40.
    pub fn in_range(&self) -> bool {
        let scales = LOWEST_SCALE..=HIGHEST_SCALE;
        let offsets = -HIGHEST_OFFSET..=HIGHEST_OFFSET;
        self.scale.iter().all(|scale| scales.contains(scale))
            && self.offset.iter().all(|offset| offsets.contains(offset))
    }

    /// The coordinates of stored values X, Y, Z.
    pub fn coordinates(&self, stored: [i32; 3]) -> [f64; 3] {
        std::array::from_fn(|axis| coordinate(stored[axis], self.scale[axis], self.offset[axis]))
    }
}

/// The stored value times the scale, rounded once, plus the offset, rounded once.
pub fn coordinate(stored: i32, scale: f64, offset: f64) -> f64 {
    f64::from(stored) * scale + offset
}

#[cfg(test)]
mod tests {
    use super::*;

    fn with_scale(scale: f64) -> Scaling {
        Scaling {
            scale: [1.0, scale, 1.0],
            offset: [0.0; 3],
        }
    }

    fn with_offset(offset: f64) -> Scaling {
        Scaling {
            scale: [1.0; 3],
            offset: [0.0, 0.0, offset],
        }
    }

    #[test]
    fn p8_stored_minus_one_gives_nine_and_a_half() {
        let bytes = coordinate(-1, 0.5, 10.0).to_bits().to_le_bytes();
        assert_eq!(bytes, [0, 0, 0, 0, 0, 0, 0x23, 0x40]);
    }

    #[test]
    fn scales_pass_from_two_to_the_minus_40_to_two_to_the_20() {
        let (low, high) = (2f64.powi(-40), 2f64.powi(20));
        assert!(with_scale(low).in_range());
        assert!(with_scale(high).in_range());
        assert!(!with_scale(low.next_down()).in_range());
        assert!(!with_scale(high.next_up()).in_range());
        assert!(!with_scale(-0.0).in_range());
        assert!(!with_scale(f64::NAN).in_range());
    }

    #[test]
    fn offsets_pass_up_to_two_to_the_40_on_both_sides() {
        let high = 2f64.powi(40);
        assert!(with_offset(high).in_range());
        assert!(with_offset(-high).in_range());
        assert!(with_offset(-0.0).in_range());
        assert!(!with_offset(high.next_up()).in_range());
        assert!(!with_offset(-high.next_up()).in_range());
        assert!(!with_offset(f64::NAN).in_range());
        assert!(!with_offset(f64::INFINITY).in_range());
    }
}

//! Boxes on sheets: from a low to a high stored value on each axis, both included.

use crate::rng::Rng;

/// The stored values X, Y, Z of a point.
pub type Stored = [i32; 3];

/// Stored values at the ends of their range and around 0.
pub const TELLING: [i32; 6] = [i32::MIN, i32::MIN + 1, -1, 0, 1, i32::MAX];

/// A box, by the low and the high stored values X, Y, Z.
#[derive(Debug, Clone, Copy, PartialEq, Eq)]
pub struct BoxSpec {
    pub low: Stored,
    pub high: Stored,
}

impl BoxSpec {
    /// The box that holds every place.
    pub const WHOLE: Self = Self::new([i32::MIN; 3], [i32::MAX; 3]);

    pub const fn new(low: Stored, high: Stored) -> Self {
        Self { low, high }
    }

    /// The box that holds one place alone.
    pub const fn of_one(place: Stored) -> Self {
        Self::new(place, place)
    }

    /// A box that passes; half of its axes are whole.
    pub fn random(rng: &mut Rng) -> Self {
        let ranges = [(); 3].map(|()| random_range(rng));
        Self::new(ranges.map(|(low, _)| low), ranges.map(|(_, high)| high))
    }

    /// Reads the 24 bytes that stand on a line.
    pub fn read(body: &[u8]) -> Self {
        let value = |index: usize| {
            let bytes = body[4 * index..].first_chunk();
            i32::from_le_bytes(*bytes.expect("a box has six values"))
        };
        Self::new([0, 2, 4].map(value), [1, 3, 5].map(value))
    }

    /// Low X, high X, low Y, high Y, low Z, high Z.
    pub fn bytes(&self) -> Vec<u8> {
        let ranges = self.low.iter().zip(&self.high);
        let values = ranges.flat_map(|(low, high)| [low, high]);
        values.flat_map(|value| value.to_le_bytes()).collect()
    }

    pub fn holds(&self, place: Stored) -> bool {
        (0..3).all(|axis| (self.low[axis]..=self.high[axis]).contains(&place[axis]))
    }

    /// How many steps a place is off the box, on all axes together; none where the box holds it.
    pub fn steps_off(&self, place: Stored) -> i64 {
        let steps = |axis: usize| {
            let values = [self.low[axis], self.high[axis], place[axis]];
            let [low, high, value] = values.map(i64::from);
            (low - value).max(value - high).max(0)
        };
        (0..3).map(steps).sum()
    }

    /// Whether a low value is above the high one of its axis.
    pub fn is_reversed(&self) -> bool {
        (0..3).any(|axis| self.low[axis] > self.high[axis])
    }
}

fn random_range(rng: &mut Rng) -> (i32, i32) {
    if rng.chance(50) {
        return (i32::MIN, i32::MAX);
    }
    let [one, other] = [(); 2].map(|()| random_value(rng));
    (one.min(other), one.max(other))
}

fn random_value(rng: &mut Rng) -> i32 {
    if rng.chance(30) {
        rng.pick(&TELLING)
    } else {
        rng.next() as i32
    }
}

/// The place of a point record.
pub fn place_of(point: &[u8]) -> Stored {
    std::array::from_fn(|axis| {
        let bytes = point[4 * axis..].first_chunk();
        i32::from_le_bytes(*bytes.expect("a point has three values"))
    })
}

/// Moves a point record to a place; its other bytes stay.
pub fn put_place(point: &mut [u8], place: Stored) {
    point[..12].copy_from_slice(&place.map(i32::to_le_bytes).concat());
}

#[cfg(test)]
mod tests {
    use super::*;
    use crate::rng::FIXED_SEED;

    /// The values of one box, as they are written here and as they stand on a line.
    const VALUES: BoxSpec = BoxSpec::new([-1, 256, i32::MIN], [300, 65536, i32::MAX]);
    const BYTES: [u8; 24] = [
        0xFF, 0xFF, 0xFF, 0xFF, 0x2C, 0x01, 0, 0, 0, 1, 0, 0, 0, 0, 1, 0, 0, 0, 0, 0x80, 0xFF,
        0xFF, 0xFF, 0x7F,
    ];

    #[test]
    fn the_values_stand_axis_by_axis_with_the_lowest_byte_first() {
        assert_eq!(VALUES.bytes(), BYTES);
        assert_eq!(BoxSpec::read(&BYTES), VALUES);
    }

    #[test]
    fn a_box_holds_its_faces_and_nothing_beside_them() {
        for (place, held, steps) in [
            ([-1, 256, i32::MIN], true, 0),
            ([300, 65536, i32::MAX], true, 0),
            ([0, 300, 0], true, 0),
            ([-2, 300, 0], false, 1),
            ([301, 300, 0], false, 1),
            ([0, 255, 0], false, 1),
            ([310, 65540, 0], false, 14),
        ] {
            assert_eq!(VALUES.holds(place), held, "{place:?}");
            assert_eq!(VALUES.steps_off(place), steps, "{place:?}");
        }
    }

    #[test]
    fn a_low_value_above_the_high_one_reverses_a_box() {
        assert!(!VALUES.is_reversed() && !BoxSpec::of_one([7; 3]).is_reversed());
        for axis in 0..3 {
            let mut reversed = BoxSpec::of_one([7; 3]);
            reversed.high[axis] -= 1;
            assert!(reversed.is_reversed());
        }
    }

    #[test]
    fn a_point_is_where_it_was_put() {
        let mut point = [0xEE; 20];
        put_place(&mut point, [-2, 256, 7]);
        let bytes = [0xFE, 0xFF, 0xFF, 0xFF, 0, 1, 0, 0, 7, 0, 0, 0];
        assert_eq!((&point[..12], &point[12..]), (&bytes[..], &[0xEE; 8][..]));
        assert_eq!(place_of(&point), [-2, 256, 7]);
    }

    #[test]
    fn random_boxes_pass_and_hold_about_a_third_of_random_places() {
        let mut rng = Rng::new(FIXED_SEED);
        let mut held = 0;
        for _ in 0..10_000 {
            let random = BoxSpec::random(&mut rng);
            assert!(!random.is_reversed());
            held += u32::from(random.holds([(); 3].map(|()| rng.next() as i32)));
        }
        assert!((2500..4500).contains(&held), "{held}");
    }
}

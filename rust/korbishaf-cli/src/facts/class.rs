//! Classes of points, and the flags beside them.

use korbishaf::{Point, class_name};

/// How many classes the points of formats 0 to 3 can have. Above these, a byte has flags.
pub const CLASSES: u8 = 32;

/// A flag of points.
#[derive(Clone, Copy, Debug, PartialEq, Eq)]
pub struct Flag {
    /// Its name.
    pub name: &'static str,
    /// Its name in JSON.
    pub member: &'static str,
    bit: u8,
}

/// The flag of points that were made in another way than by the laser.
const SYNTHETIC: Flag = Flag {
    name: "synthetic",
    member: "synthetic",
    bit: 0x20,
};

/// The flag of model key points.
const KEY_POINT: Flag = Flag {
    name: "key-point",
    member: "key_point",
    bit: 0x40,
};

/// The flag of points that count as deleted, and never go out.
pub const WITHHELD: Flag = Flag {
    name: "withheld",
    member: "withheld",
    bit: 0x80,
};

/// All flags, from the lowest bit to the highest.
pub const FLAGS: [Flag; 3] = [SYNTHETIC, KEY_POINT, WITHHELD];

/// A class and flags, as they stand together in a classification byte.
#[derive(Clone, Copy, Debug, PartialEq, Eq)]
pub struct ClassByte(pub u8);

impl ClassByte {
    /// That of a point.
    pub fn of(point: &Point) -> Self {
        let flag = |flag: Flag, is_set| flag.bit * u8::from(is_set);
        ClassByte(
            point.classification
                | flag(SYNTHETIC, point.synthetic)
                | flag(KEY_POINT, point.key_point)
                | flag(WITHHELD, point.withheld),
        )
    }

    /// The class.
    pub fn class(self) -> u8 {
        self.0 % CLASSES
    }

    /// Whether a flag is set.
    pub fn has(self, flag: Flag) -> bool {
        self.0 & flag.bit != 0
    }

    /// The class and the flags in words, as in `ground, key-point`.
    pub fn words(self) -> String {
        let mut words = name(self.class()).to_string();
        for flag in FLAGS.into_iter().filter(|&flag| self.has(flag)) {
            words.push_str(", ");
            words.push_str(flag.name);
        }
        words
    }
}

/// The name of a class, or that LAS 1.2 reserves it.
pub fn name(class: u8) -> &'static str {
    class_name(class).unwrap_or("reserved")
}

#[cfg(test)]
mod tests {
    use super::*;

    #[test]
    fn class_bytes_in_words() {
        for (byte, wanted) in [
            (0, "created-never-classified"),
            (2, "ground"),
            (8, "model-key-point"),
            (12, "overlap"),
            (31, "reserved"),
            (34, "ground, synthetic"),
            (66, "ground, key-point"),
            (140, "overlap, withheld"),
            (255, "reserved, synthetic, key-point, withheld"),
        ] {
            assert_eq!(ClassByte(byte).words(), wanted, "{byte}");
        }
    }

    #[test]
    fn a_point_has_its_class_byte_again() {
        for byte in 0..=255 {
            let mut record = [0; 20];
            record[15] = byte;
            let point = korbishaf::decode(0, 20, &record).unwrap();
            let found = ClassByte::of(&point);
            assert_eq!(found, ClassByte(byte));
            assert_eq!(found.class(), point.classification);
            assert_eq!(
                FLAGS.map(|flag| found.has(flag)),
                [point.synthetic, point.key_point, point.withheld]
            );
        }
    }
}

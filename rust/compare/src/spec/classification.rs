//! The classification byte of a point: the class in its low five bits, then three flags.

use crate::rng::Rng;

/// The byte's place in a point of any format.
pub const CLASSIFICATION: usize = 15;

pub const SYNTHETIC: u8 = 0x20;
pub const KEY_POINT: u8 = 0x40;
pub const WITHHELD: u8 = 0x80;

/// The highest class that the byte has room for.
pub const HIGHEST_CLASS: u8 = 31;

/// The class, without the flags.
pub const fn class_of(byte: u8) -> u8 {
    byte & HIGHEST_CLASS
}

pub fn is_withheld(byte: u8) -> bool {
    byte & WITHHELD != 0
}

/// Any byte; low classes are frequent, and so are points without flags.
pub fn random_classification(rng: &mut Rng) -> u8 {
    let classes = rng.pick(&[10, 10, 10, 32]);
    let flags = if rng.chance(50) { 0 } else { rng.below(8) };
    (32 * flags + rng.below(classes)) as u8
}

#[cfg(test)]
mod tests {
    use super::*;
    use crate::rng::FIXED_SEED;

    #[test]
    fn a_byte_has_a_class_and_three_flags() {
        assert_eq!([66, 0xE2, 31, 32, 255].map(class_of), [2, 2, 31, 0, 31]);
        assert_eq!(
            [66, 0x7F, 0x80, 0xE2].map(is_withheld),
            [false, false, true, true]
        );
        assert_eq!(2 | KEY_POINT, 66);
        assert_eq!(HIGHEST_CLASS | SYNTHETIC | KEY_POINT | WITHHELD, 255);
    }

    #[test]
    fn random_bytes_are_all_there_often_without_flags_and_sometimes_withheld() {
        let mut rng = Rng::new(FIXED_SEED);
        let bytes: Vec<u8> = (0..100_000)
            .map(|_| random_classification(&mut rng))
            .collect();
        assert!((0..=255).all(|byte| bytes.contains(&byte)));
        let share =
            |is_it: &dyn Fn(u8) -> bool| bytes.iter().filter(|&&byte| is_it(byte)).count() / 1000;
        assert!((50..65).contains(&share(&|byte| byte <= HIGHEST_CLASS)));
        assert!((20..30).contains(&share(&is_withheld)));
        assert!((75..90).contains(&share(&|byte| class_of(byte) < 10)));
    }
}

//! Points that are counted together, and what becomes of them.

use super::class::{ClassByte, Flag, WITHHELD};

/// Points of one classification byte, all of which lie outside all boxes of a sheet, or none of which does. Where there
/// are no boxes, none lies outside.
#[derive(Clone, Copy, Debug, PartialEq, Eq)]
pub struct Group {
    /// Their class and flags.
    pub byte: ClassByte,
    /// Whether they lie outside all boxes.
    pub outside: bool,
}

/// What becomes of points under a sheet. Of several reasons why points stay the first counts, so that each point has
/// one outcome.
#[derive(Clone, Copy, Debug, PartialEq, Eq)]
pub enum Outcome {
    /// They go out.
    GoOut,
    /// They stay, since they are withheld.
    Withheld,
    /// They stay, since the sheet does not keep their class.
    ClassNotKept,
    /// They stay, since they lie outside all boxes.
    OutsideBoxes,
}

impl Group {
    /// How many groups there may be.
    pub const COUNT: usize = 512;

    /// All of them, each at its place.
    pub fn all() -> impl Iterator<Item = Group> {
        let of = |outside| {
            move |byte| Group {
                byte: ClassByte(byte),
                outside,
            }
        };
        (0..=255).map(of(false)).chain((0..=255).map(of(true)))
    }

    /// Its place among all of them.
    pub fn place(self) -> usize {
        usize::from(self.byte.0) + 256 * usize::from(self.outside)
    }

    /// The class.
    pub fn class(self) -> u8 {
        self.byte.class()
    }

    /// Whether a flag is set.
    pub fn has(self, flag: Flag) -> bool {
        self.byte.has(flag)
    }

    /// What becomes of the points, by whether the sheet keeps a class.
    pub fn outcome(self, keeps_class: impl Fn(u8) -> bool) -> Outcome {
        if self.has(WITHHELD) {
            Outcome::Withheld
        } else if !keeps_class(self.class()) {
            Outcome::ClassNotKept
        } else if self.outside {
            Outcome::OutsideBoxes
        } else {
            Outcome::GoOut
        }
    }
}

#[cfg(test)]
mod tests {
    use super::*;

    #[test]
    fn every_group_stands_at_its_place() {
        assert_eq!(Group::all().count(), Group::COUNT);
        for (place, group) in Group::all().enumerate() {
            assert_eq!(group.place(), place);
        }
    }

    #[test]
    fn the_first_reason_counts() {
        for (byte, outside, kept, wanted) in [
            (2, false, true, Outcome::GoOut),
            (66, false, true, Outcome::GoOut),
            (2, true, true, Outcome::OutsideBoxes),
            (2, false, false, Outcome::ClassNotKept),
            (2, true, false, Outcome::ClassNotKept),
            (130, false, true, Outcome::Withheld),
            (130, true, false, Outcome::Withheld),
        ] {
            let byte = ClassByte(byte);
            let outcome = Group { byte, outside }.outcome(|class| kept && class == 2);
            assert_eq!(outcome, wanted, "{byte:?} {outside}");
        }
    }
}

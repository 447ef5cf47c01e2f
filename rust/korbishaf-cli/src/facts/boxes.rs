//! The boxes of a sheet.

use korbishaf::{Line, Sheet};

/// The boxes of a sheet, in the order of its lines.
#[derive(Debug, Default)]
pub struct Boxes(Vec<Bounds>);

/// The lowest and the highest stored X, Y and Z of a box, all of which belong to it.
#[derive(Clone, Copy, Debug, PartialEq, Eq)]
pub struct Bounds {
    low: [i32; 3],
    high: [i32; 3],
}

impl Boxes {
    /// The boxes of a sheet.
    pub fn of(sheet: &Sheet) -> Self {
        let bounds = sheet.lines().filter_map(|line| match line {
            Line::Box { low, high } => Some(Bounds { low, high }),
            _ => None,
        });
        Boxes(bounds.collect())
    }

    /// No boxes, where no sheet is asked for.
    pub fn none() -> Self {
        Boxes::default()
    }

    /// How many there are.
    pub fn count(&self) -> usize {
        self.0.len()
    }

    /// Each of them.
    pub fn iter(&self) -> impl Iterator<Item = &Bounds> {
        self.0.iter()
    }
}

impl Bounds {
    /// Whether a point of these stored values lies in the box.
    pub fn hold(&self, stored: [i32; 3]) -> bool {
        let by_axis = self.low.iter().zip(&self.high).zip(&stored);
        by_axis
            .into_iter()
            .all(|((low, high), stored)| (low..=high).contains(&stored))
    }
}

#[cfg(test)]
mod tests {
    use super::*;

    #[test]
    fn what_lies_at_an_edge_is_held() {
        let sheet =
            Sheet::from_text("class 2\nbox X -5..5 Y 0..0\nrecord a 7\nbox Z 7..9").unwrap();
        let boxes = Boxes::of(&sheet);
        for (stored, wanted) in [
            ([-5, 0, 0], [true, false]),
            ([5, 0, i32::MIN], [true, false]),
            ([5, 0, 7], [true, true]),
            ([6, 0, 9], [false, true]),
            ([-6, 0, 10], [false, false]),
            ([0, 1, 6], [false, false]),
            ([0, -1, 8], [false, true]),
        ] {
            let held: Vec<_> = boxes.iter().map(|bounds| bounds.hold(stored)).collect();
            assert_eq!(held, wanted, "{stored:?}");
        }
        assert_eq!((boxes.count(), Boxes::none().count()), (2, 0));
    }
}

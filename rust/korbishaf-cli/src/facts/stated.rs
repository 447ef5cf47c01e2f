//! What the header states of the points, beside what is so.

use super::tally::Tally;
use crate::layout::BOUNDS;
use korbishaf::{Header, coordinate};

/// A value that the header states, and the one that the points have.
#[derive(Clone, Copy, Debug, PartialEq)]
pub struct Compared<T> {
    /// The stated value.
    pub stated: T,
    /// The actual value.
    pub actual: T,
}

impl<T: PartialEq> Compared<T> {
    /// Whether they differ, by value: both zeros are the same, and a NaN differs from every number.
    pub fn differs(&self) -> bool {
        self.stated != self.actual
    }
}

/// A bound.
#[derive(Clone, Copy, Debug, PartialEq)]
pub struct Bound {
    /// Its name, as in `max X`.
    pub name: &'static str,
    /// Its name in JSON, as in `max_x`.
    pub member: &'static str,
    /// Its values.
    pub values: Compared<f64>,
    /// The stored value that the actual one is the coordinate of; none without points.
    pub stored: Option<i32>,
}

/// The names of the bounds in JSON, in the order of the header.
const MEMBERS: [&str; 6] = ["max_x", "min_x", "max_y", "min_y", "max_z", "min_z"];

/// The numbers of points by return, 1 to 5.
pub fn returns(header: &Header<'_>, tally: &Tally) -> [Compared<u64>; 5] {
    let [_, one, two, three, four, five, ..] = tally.by_return;
    let actual = [one, two, three, four, five];
    std::array::from_fn(|bin| Compared {
        stated: header.points_by_return[bin].into(),
        actual: actual[bin],
    })
}

/// The bounds. Without points all six are 0.
pub fn bounds(header: &Header<'_>, tally: &Tally) -> [Bound; 6] {
    std::array::from_fn(|index| {
        let (axis, is_smallest) = (index / 2, index % 2 == 1);
        let stated = if is_smallest { header.min } else { header.max };
        let stored = tally.extremes.map(|extremes| {
            let (smallest, largest) = extremes[axis];
            if is_smallest { smallest } else { largest }
        });
        let actual = stored.map_or(0.0, |stored| {
            coordinate(stored, header.scale[axis], header.offset[axis])
        });
        let (name, member) = (BOUNDS[index].name, MEMBERS[index]);
        let values = Compared {
            stated: stated[axis],
            actual,
        };
        Bound {
            name,
            member,
            values,
            stored,
        }
    })
}

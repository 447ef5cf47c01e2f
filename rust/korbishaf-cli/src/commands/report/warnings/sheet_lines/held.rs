//! The points that a line for classes or a box holds.

use crate::commands::report::plan::Plan;
use crate::facts::group::Outcome;
use korbishaf::{Line, Sheet, class_kept};

/// The reasons why points that a line holds may stay, with words for such points.
const STAYING: [(Outcome, &str); 3] = [
    (Outcome::Withheld, "withheld points"),
    (Outcome::ClassNotKept, "points of classes that are not kept"),
    (Outcome::OutsideBoxes, "points outside all boxes"),
];

/// What becomes of the points that a line holds.
pub struct Held(Vec<Outcome>);

impl Held {
    /// Of a line for classes, by what the library says of a sheet of that line alone.
    pub fn by_classes(plan: &Plan<'_>, line: &Line) -> Self {
        let sheet = Sheet::from_lines([*line]);
        let holds = |class| sheet.as_ref().is_ok_and(|sheet| class_kept(sheet, class));
        let held = plan.facts.tally.groups();
        let held = held.filter(|points| holds(points.class()));
        Held(held.map(|points| plan.outcome(points)).collect())
    }

    /// Of the box with that index, which is that among the boxes.
    pub fn by_box(plan: &Plan<'_>, index: usize) -> Self {
        let held = plan.facts.tally.groups_in(index);
        Held(held.map(|points| plan.outcome(points)).collect())
    }

    /// Whether the line holds no point.
    pub fn is_empty(&self) -> bool {
        self.0.is_empty()
    }

    /// Whether no point that the line holds goes out.
    pub fn is_idle(&self) -> bool {
        !self.0.contains(&Outcome::GoOut)
    }

    /// Words for the points that the line holds and that stay; none where there are none.
    pub fn words(&self) -> String {
        let staying = STAYING
            .iter()
            .filter(|(outcome, _)| self.0.contains(outcome));
        let words: Vec<_> = staying.map(|(_, words)| *words).collect();
        match words.as_slice() {
            [] => String::new(),
            words => format!(" but {}", words.join(" and ")),
        }
    }
}

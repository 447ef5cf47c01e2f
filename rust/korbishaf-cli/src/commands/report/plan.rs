//! What a sheet would keep of a file.

use super::name::{self, Name};
use crate::facts::Facts;
use crate::facts::boxes::Boxes;
use crate::facts::class::{CLASSES, Flag};
use crate::facts::group::{Group, Outcome};
use crate::keep_sheet::KeepSheet;
use crate::progress::Progress;
use crate::releasing;
use korbishaf::{Error, Line, Record, Sheet, class_kept, record_kept};
use std::collections::BTreeSet;

/// A file's facts, parted by what the library keeps under a sheet.
pub struct Plan<'a> {
    /// The file's facts.
    pub facts: Facts<'a>,
    /// The sheet.
    pub sheet: Sheet,
    /// The sheet as it was read.
    pub keep_sheet: &'a KeepSheet,
    /// The released file's length.
    pub length: usize,
    kept_classes: [bool; CLASSES as usize],
    kept_names: BTreeSet<Name>,
}

impl<'a> Plan<'a> {
    /// The plan of a release, or why it would be refused: the file is checked before the sheet.
    pub fn of(
        file: &'a [u8],
        keep_sheet: &'a KeepSheet,
        progress: &Progress,
    ) -> Result<Self, Error> {
        let length = releasing::needed(file, &keep_sheet.bytes, progress)?;
        let sheet = Sheet::from_bytes(&*keep_sheet.bytes)?;
        Ok(Plan {
            facts: Facts::of(file, &Boxes::of(&sheet), progress)?,
            kept_classes: std::array::from_fn(|class| class_kept(&sheet, class as u8)),
            kept_names: kept_names(&sheet),
            sheet,
            keep_sheet,
            length,
        })
    }

    /// Whether the sheet keeps a class of points.
    pub fn keeps_class(&self, class: u8) -> bool {
        self.kept_classes[usize::from(class)]
    }

    /// What becomes of points.
    pub fn outcome(&self, points: Group) -> Outcome {
        points.outcome(|class| self.keeps_class(class))
    }

    /// Whether a record goes out.
    pub fn keeps_record(&self, record: &Record<'_>) -> bool {
        self.kept_names.contains(&name::of(record))
    }

    /// The classes of the points with that outcome, with the numbers of these.
    pub fn classes(&self, outcome: Outcome) -> impl Iterator<Item = (u8, u64)> + Clone {
        let tally = &self.facts.tally;
        tally.classes(move |points| self.outcome(points) == outcome)
    }

    /// Each flag, with the number of points that have it and go out.
    pub fn flags(&self) -> [(Flag, u64); 3] {
        let tally = &self.facts.tally;
        tally.flags(|points| self.outcome(points) == Outcome::GoOut)
    }

    /// The same without the flags that none of these points has.
    pub fn set_flags(&self) -> impl Iterator<Item = (Flag, u64)> + Clone {
        let flags = self.flags().into_iter();
        flags.filter(|&(_, points)| points > 0)
    }

    /// The number of points that go out, or that stay.
    pub fn points(&self, going_out: bool) -> u64 {
        let tally = &self.facts.tally;
        tally.points(|points| (self.outcome(points) == Outcome::GoOut) == going_out)
    }

    /// The records that go out, or those that stay, with their numbers in the file, from 1.
    pub fn records(&self, going_out: bool) -> impl Iterator<Item = (usize, Record<'a>)> + Clone {
        let records = (1..).zip(self.facts.records());
        records.filter(move |(_, record)| self.keeps_record(record) == going_out)
    }
}

/// The names of records that go out. The library is asked once for each name that a line has, and not for each of very
/// many records; no other name is kept.
fn kept_names(sheet: &Sheet) -> BTreeSet<Name> {
    let kept = sheet.lines().filter(|line| match line {
        Line::Record { user_id, record_id } => record_kept(sheet, user_id.as_bytes(), *record_id),
        _ => false,
    });
    kept.filter_map(|line| name::of_line(&line)).collect()
}

#[cfg(test)]
mod tests {
    use super::*;
    use compare::rng::{Rng, seeds};
    use compare::spec::{FileSpec, SheetSpec};

    /// Tries the plans of many files and sheets.
    fn each(mut check: impl FnMut(&[u8], &Plan<'_>)) {
        for seed in seeds() {
            let mut rng = Rng::new(seed);
            for _ in 0..2000 {
                let spec = FileSpec::random(&mut rng);
                let sheet = SheetSpec::random_for(&mut rng, &spec);
                let (file, bytes) = (spec.bytes(), sheet.bytes());
                let keep_sheet = KeepSheet::of_bytes("sheet.bin", bytes);
                let plan = Plan::of(&file, &keep_sheet, &Progress::none()).unwrap();
                check(&file, &plan);
            }
        }
    }

    #[test]
    fn records_and_classes_go_out_as_the_library_says() {
        let mut seen = [0; 2];
        each(|_, plan| {
            for record in plan.facts.records() {
                let kept = record_kept(&plan.sheet, record.user_id, record.record_id);
                assert_eq!(plan.keeps_record(&record), kept);
                seen[usize::from(kept)] += 1;
            }
            for class in 0..CLASSES {
                assert_eq!(plan.keeps_class(class), class_kept(&plan.sheet, class));
            }
        });
        assert!(seen.iter().all(|&count| count > 500), "{seen:?}");
    }

    /// All that may become of points.
    const OUTCOMES: [Outcome; 4] = [
        Outcome::GoOut,
        Outcome::Withheld,
        Outcome::ClassNotKept,
        Outcome::OutsideBoxes,
    ];

    #[test]
    fn the_points_that_go_out_are_those_of_a_release() {
        let mut seen = [0; 4];
        each(|file, plan| {
            let out = korbishaf::release_to_vec(file, &plan.sheet).unwrap();
            let released = Facts::of(&out, &Boxes::none(), &Progress::none()).unwrap();
            let released = released.tally;
            let going_out = plan.classes(Outcome::GoOut);
            assert!(going_out.eq(released.classes(|_| true)));
            assert_eq!(plan.flags(), released.flags(|_| true));
            // each point is in one of the lists
            let counts = OUTCOMES.map(|outcome| {
                let classes = plan.classes(outcome);
                classes.map(|(_, points)| points).sum::<u64>()
            });
            let (out, staying) = (counts[0], counts[1..].iter().sum());
            assert_eq!([true, false].map(|is| plan.points(is)), [out, staying]);
            assert_eq!(out + staying, u64::from(plan.facts.header.point_count));
            seen = std::array::from_fn(|list| seen[list] + counts[list]);
        });
        assert!(seen.iter().all(|&count| count > 500), "{seen:?}");
    }

    /// A box that holds points has them in the tally, and no other has.
    #[test]
    fn the_points_in_a_box_are_those_that_it_holds() {
        let mut seen = [0; 2];
        each(|file, plan| {
            let boxes = plan.sheet.lines().filter_map(|line| match line {
                Line::Box { low, high } => Some((low, high)),
                _ => None,
            });
            for (index, (low, high)) in boxes.enumerate() {
                let points = korbishaf::points(file).unwrap();
                let holds = points.map(|found| found.point).any(|point| {
                    let stored = [point.x, point.y, point.z];
                    (0..3).all(|axis| low[axis] <= stored[axis] && stored[axis] <= high[axis])
                });
                assert_eq!(plan.facts.tally.groups_in(index).count() > 0, holds);
                seen[usize::from(holds)] += 1;
            }
        });
        assert!(seen.iter().all(|&count| count > 100), "{seen:?}");
    }
}

//! Points that stay since they are withheld, and all or none of them going out.

use super::super::plan::Plan;
use super::super::warning::Warning;
use crate::facts::class::{self, WITHHELD};
use crate::facts::group::Outcome;
use crate::json::Json;
use crate::shown::counted;

/// The warnings.
pub fn of(plan: &Plan<'_>) -> Vec<Warning> {
    // those outside all boxes would stay anyway, as those of other classes would
    let otherwise_kept = plan.facts.tally.classes(|points| {
        points.has(WITHHELD) && !points.outside && plan.keeps_class(points.class())
    });
    let mut warnings: Vec<_> = otherwise_kept.map(withheld_stays).collect();
    warnings.extend(all_or_none(plan));
    warnings
}

fn withheld_stays((class, points): (u8, u64)) -> Warning {
    let (counted, name) = (counted(points, "point"), class::name(class));
    let stay = match points {
        1 => "is withheld and stays",
        _ => "are withheld and stay",
    };
    let words = format!("{counted} of class {class} ({name}) {stay} whatever the sheet says");
    let about = vec![
        ("class", Json::number(class)),
        ("points", Json::number(points)),
    ];
    Warning::new("withheld_stays", words, about)
}

/// The warning that no point goes out, or all do that can: withheld ones never do. A file without points has neither.
fn all_or_none(plan: &Plan<'_>) -> Option<Warning> {
    let (going_out, staying) = (plan.points(true), plan.points(false));
    let total = going_out + staying;
    let withheld: u64 = plan
        .classes(Outcome::Withheld)
        .map(|(_, points)| points)
        .sum();
    let (kind, which) = match (going_out, staying) {
        (0, 0) => return None,
        (0, _) => ("no_point_goes_out", "no point"),
        (_, 0) => ("every_point_goes_out", "every point"),
        _ if staying == withheld => ("every_point_goes_out", "every point that is not withheld"),
        _ => return None,
    };
    let words = format!("{which} goes out ({going_out} of {total})");
    let about = vec![("points", Json::number(total))];
    Some(Warning::new(kind, words, about))
}

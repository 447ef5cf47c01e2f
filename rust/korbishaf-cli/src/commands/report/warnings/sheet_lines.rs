//! Lines of the sheet that match nothing.

mod held;

use super::super::name;
use super::super::plan::Plan;
use super::super::warning::Warning;
use super::boxes;
use crate::facts::class::{CLASSES, ClassByte, WITHHELD};
use crate::json::Json;
use held::Held;
use korbishaf::Line;
use std::collections::BTreeSet;

/// The warnings, in the order of the lines.
pub fn of(plan: &Plan<'_>) -> Vec<Warning> {
    let unseen = unseen_names(plan);
    let names_classes = boxes::names_classes(plan);
    let mut box_indices = 0..;
    let lines = plan.sheet.lines().enumerate();
    let warnings = lines.filter_map(|(index, line)| {
        let held = match line {
            Line::Classes { .. } => Held::by_classes(plan, &line),
            Line::Box { .. } => Held::by_box(plan, box_indices.next()?),
            _ => {
                let is_unseen = unseen.contains(&name::of_line(&line)?);
                return is_unseen.then(|| warning(plan, index, &line, ""));
            }
        };
        // where there are no lines for classes, no box has points that go out, and that is said once
        let is_idle = held.is_idle() && (names_classes || held.is_empty());
        is_idle.then(|| warning(plan, index, &line, &held.words()))
    });
    warnings.collect()
}

/// The names that lines of the sheet have and no record has.
fn unseen_names(plan: &Plan<'_>) -> BTreeSet<name::Name> {
    let lines = plan.sheet.lines();
    let mut unseen: BTreeSet<_> = lines.filter_map(|line| name::of_line(&line)).collect();
    for record in plan.facts.records() {
        if unseen.is_empty() {
            break;
        }
        unseen.remove(&name::of(&record));
    }
    unseen
}

/// The warning for a line, with words for what it holds and does not release.
fn warning(plan: &Plan<'_>, index: usize, line: &Line, but: &str) -> Warning {
    let place = plan.keep_sheet.place(index);
    let why = why(line).unwrap_or_default();
    let words = format!("{place}: matches nothing in this file{but}: {line}{why}");
    Warning::new("line_matches_nothing", words, about(plan, index, line))
}

/// Why a line matches nothing in any file: it is for classes that no point has. One that is for a single class may have
/// been written for a classification byte with flags.
fn why(line: &Line) -> Option<String> {
    let (lowest, highest) = match *line {
        Line::Classes { lowest, highest } if lowest >= CLASSES => (lowest, highest),
        _ => return None,
    };
    let meant = ClassByte(lowest);
    let (class, words) = (meant.class(), meant.words());
    let instead = if lowest < highest {
        String::new()
    } else if meant.has(WITHHELD) {
        format!(": points of the byte {lowest} ({words}) never go out")
    } else {
        format!(": the line 'class {class}' keeps points of the byte {lowest} ({words}) too")
    };
    let most = CLASSES - 1;
    Some(format!(
        "; in point formats 0 to 3 a class goes from 0 to {most}, and flags are no part of it{instead}"
    ))
}

/// The line as members of an object.
pub fn about(plan: &Plan<'_>, index: usize, line: &Line) -> Vec<(&'static str, Json)> {
    vec![
        ("line", Json::count(plan.keep_sheet.line_number(index))),
        ("line_text", Json::text(line.to_string())),
    ]
}

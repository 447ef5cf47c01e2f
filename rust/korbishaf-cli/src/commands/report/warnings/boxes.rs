//! Boxes on a sheet that keeps no class.

use super::super::plan::Plan;
use super::super::warning::Warning;
use crate::json::Json;
use korbishaf::Line;

/// The warning, where the sheet has boxes and no line for classes.
pub fn of(plan: &Plan<'_>) -> Option<Warning> {
    let boxes = plan.sheet.lines().filter(is_box).count();
    if boxes == 0 || names_classes(plan) {
        return None;
    }
    let words = "the sheet has boxes and no line for classes, and so keeps no point";
    let about = vec![("boxes", Json::count(boxes))];
    Some(Warning::new("boxes_without_classes", words.into(), about))
}

/// Whether the sheet has a line for classes.
pub fn names_classes(plan: &Plan<'_>) -> bool {
    let mut lines = plan.sheet.lines();
    lines.any(|line| matches!(line, Line::Classes { .. }))
}

fn is_box(line: &Line) -> bool {
    matches!(line, Line::Box { .. })
}

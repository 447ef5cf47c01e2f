//! What a report warns of.

mod boxes;
mod near_names;
mod points;
mod projection;
mod sheet_lines;
mod stated;

use super::plan::Plan;
use super::warning::Warning;

/// The warnings of a plan: of the sheet's lines first, then of records and points, then of the header.
pub fn of(plan: &Plan<'_>) -> Vec<Warning> {
    let mut warnings = sheet_lines::of(plan);
    warnings.extend(boxes::of(plan));
    warnings.extend(near_names::of(plan));
    warnings.extend(projection::of(plan));
    warnings.extend(points::of(plan));
    warnings.extend(stated::of(plan));
    warnings
}

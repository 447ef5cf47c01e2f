//! What `report` prints for a program.

use super::plan::Plan;
use super::warning::Warning;
use crate::facts::group::Outcome;
use crate::facts::header::{self, Published};
use crate::facts::json;
use crate::json::{Json, LazyJson};

/// The plan and the warnings as one object.
pub fn of<'a>(name: &str, plan: &'a Plan<'_>, warnings: Vec<Warning>) -> LazyJson<'a> {
    LazyJson::Object(vec![
        ("file", LazyJson::text(name)),
        ("sheet", LazyJson::text(&plan.keep_sheet.name)),
        ("goes_out", LazyJson::Object(goes_out(plan))),
        ("stays", LazyJson::Object(stays(plan))),
        ("always_published", published(plan)),
        ("warnings", Json::list(warnings, Warning::into_json)),
    ])
}

/// The length of the released file, and the points and records that it has.
fn goes_out<'a>(plan: &'a Plan<'_>) -> Vec<(&'static str, LazyJson<'a>)> {
    let of = |outcome| json::classes(plan.classes(outcome));
    vec![
        ("length", LazyJson::count(plan.length)),
        ("points", LazyJson::number(plan.points(true))),
        ("points_by_class", of(Outcome::GoOut)),
        ("points_by_flag", json::flags(plan.flags())),
        ("records", json::records(plan.records(true))),
    ]
}

/// The points that stay, each under its reason, the records that stay, and the parts beside both.
fn stays<'a>(plan: &'a Plan<'_>) -> Vec<(&'static str, LazyJson<'a>)> {
    let of = |outcome| json::classes(plan.classes(outcome));
    let mut members = vec![
        ("points", LazyJson::number(plan.points(false))),
        ("points_by_class", of(Outcome::ClassNotKept)),
        ("withheld_points_by_class", of(Outcome::Withheld)),
        ("points_outside_boxes_by_class", of(Outcome::OutsideBoxes)),
        ("records", json::records(plan.records(false))),
    ];
    members.extend(json::parts(&plan.facts));
    members
}

/// The header's fields that a release carries, and what it has of each point and record that goes out.
fn published(plan: &Plan<'_>) -> Json {
    let header = &plan.facts.header;
    let mut fields = header::fields(header);
    fields.retain(|field| field.published == Published::Always);
    Json::Object(vec![
        ("header", json::header(&fields)),
        (
            "of_a_point",
            Json::list(header::point_fields(header), Json::text),
        ),
        ("of_a_record", Json::list(header::RECORD_FIELDS, Json::text)),
    ])
}

//! What `list` prints for a program.

use super::parts::{Cutting, Part, What};
use crate::json::{Json, LazyJson};
use crate::shown;

/// The list as one object.
pub fn of<'a>([name, sheet]: [&str; 2], cutting: &Cutting<'a>) -> LazyJson<'a> {
    LazyJson::Object(vec![
        ("file", LazyJson::text(name)),
        ("sheet", LazyJson::text(sheet)),
        ("records", LazyJson::count(cutting.records())),
        ("points", LazyJson::count(cutting.points())),
        ("bytes", LazyJson::number(cutting.bytes())),
        ("lines", LazyJson::each(cutting.parts(), line)),
    ])
}

/// A line of the list, which with runs may be of several points.
fn line(part: Part<'_>) -> Json {
    let (kind, about) = match part.what {
        What::Record(number, record) => (
            "record",
            vec![
                ("number", Json::count(number)),
                ("user_id", Json::text(shown::text(record.user_id))),
                ("record_id", Json::number(record.record_id)),
            ],
        ),
        What::Points(first, count) => (
            "points",
            vec![
                ("first_point", Json::number(first)),
                ("points", Json::number(count)),
            ],
        ),
    };
    let mut members = vec![
        ("kind", Json::text(kind)),
        ("place", Json::number(part.place)),
        ("length", Json::number(part.length)),
    ];
    members.extend(about);
    Json::Object(members)
}

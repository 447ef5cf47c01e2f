//! What `show` prints for a program.

use crate::facts::{Facts, header, json};
use crate::json::LazyJson;

/// The facts as one object.
pub fn of<'a>(name: &str, facts: &'a Facts<'_>) -> LazyJson<'a> {
    let mut members = vec![
        ("file", LazyJson::text(name)),
        ("length", LazyJson::count(facts.length)),
        ("header", json::header(&header::fields(&facts.header))),
    ];
    members.extend(json::parts(facts));
    members.extend([
        ("records", json::records((1..).zip(facts.records()))),
        (
            "points_by_class",
            json::classes(facts.tally.classes(|_| true)),
        ),
        ("points_by_flag", json::flags(facts.tally.flags(|_| true))),
        ("points_by_return", json::returns(facts)),
        ("bounds", json::bounds(&facts.bounds())),
        ("geokeys", json::geokeys(facts)),
    ]);
    LazyJson::Object(members)
}

//! What `mend` prints for a program.

use super::Mended;
use crate::json::Json;

/// An object with all twelve fields.
pub fn of(mended: &Mended<'_>) -> Json {
    let fields = Json::list(mended.changes.all(), |change| {
        Json::Object(vec![
            ("name", Json::text(change.field.name)),
            ("place", Json::count(change.field.place)),
            ("before", change.before.json()),
            ("after", change.after.json()),
            ("changed", Json::Bool(change.changed)),
        ])
    });
    Json::Object(vec![
        ("file", Json::text(mended.input)),
        ("output", Json::text(mended.output)),
        ("written", Json::Bool(mended.written)),
        (
            "fields_changed",
            Json::count(mended.changes.changed().count()),
        ),
        ("fields", fields),
    ])
}

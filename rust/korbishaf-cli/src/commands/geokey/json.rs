//! What `geokey` prints for a program.

use super::lookup::Lookup;
use crate::facts::geokeys::Value;
use crate::facts::json::{key_named, refusal, value_of};
use crate::json::Json;

/// The key with its value, and what halving gives, as one object.
pub fn of(name: &str, lookup: &Lookup<'_>) -> Json {
    let value = lookup.plain.ok().map(Value::from);
    let mut members = vec![("file", Json::text(name))];
    members.extend(key_named(lookup.key));
    members.extend(value_of(lookup.key, value.as_ref()));
    members.push(("entries", Json::count(lookup.entries)));
    members.push(("by_halving", halving(lookup)));
    Json::Object(members)
}

fn halving(lookup: &Lookup<'_>) -> Json {
    let halved = &lookup.halved;
    let value = halved.value.ok().map(Value::from);
    let mut members = vec![
        ("entries_read", Json::number(halved.reads)),
        ("differs", Json::Bool(lookup.differs())),
    ];
    members.extend(value_of(lookup.key, value.as_ref()));
    members.push(("refusal", refusal(halved.value.as_ref().err())));
    Json::Object(members)
}

//! Facts as JSON.

use super::class::Flag;
use super::geokeys::{self, GeoKey, Value};
use super::header::Field;
use super::stated::Bound;
use super::{Facts, records};
use crate::json::{Json, LazyJson};
use crate::shown;
use korbishaf::{Error, Record, class_name};

/// The fields of a header, as an object.
pub fn header(fields: &[Field<'_>]) -> Json {
    let members = fields
        .iter()
        .map(|field| (field.member, field.value.json()));
    Json::Object(members.collect())
}

/// The parts beside header, records and points, as members of an object.
pub fn parts(facts: &Facts<'_>) -> Vec<(&'static str, Json)> {
    let members = facts.parts.named().map(|(_, member, part)| {
        let part = Json::Object(vec![
            ("length", Json::count(part.length)),
            ("all_zero", Json::Bool(part.all_zero)),
        ]);
        (member, part)
    });
    members.into()
}

/// Records, each with its number in the file, from 1.
pub fn records<'a, 'b>(
    records: impl Iterator<Item = (usize, Record<'a>)> + Clone + 'b,
) -> LazyJson<'b> {
    LazyJson::each(records, |(number, record)| {
        Json::Object(vec![
            ("number", Json::count(number)),
            ("user_id", Json::text(shown::text(record.user_id))),
            ("record_id", Json::number(record.record_id)),
            ("payload_length", Json::count(record.payload.len())),
            ("description", Json::text(shown::text(record.description))),
            ("well_known", optional(records::well_known(&record))),
        ])
    })
}

/// Numbers of points by class.
pub fn classes(counts: impl Iterator<Item = (u8, u64)>) -> Json {
    Json::list(counts, |(class, points)| {
        Json::Object(vec![
            ("class", Json::number(class)),
            ("name", optional(class_name(class))),
            ("points", Json::number(points)),
        ])
    })
}

/// Numbers of points by flag, as an object.
pub fn flags(counts: [(Flag, u64); 3]) -> Json {
    let members = counts.map(|(flag, points)| (flag.member, Json::number(points)));
    Json::Object(members.into())
}

/// Numbers of points by return number. The header states them for 1 to 5.
pub fn returns(facts: &Facts<'_>) -> Json {
    let stated = facts.returns();
    let counts = facts.tally.by_return.into_iter().enumerate();
    Json::list(counts, |(number, points)| {
        let compared = number.checked_sub(1).and_then(|bin| stated.get(bin));
        Json::Object(vec![
            ("return_number", Json::count(number)),
            (
                "stated",
                compared.map_or(Json::Null, |compared| Json::number(compared.stated)),
            ),
            ("actual", Json::number(points)),
            (
                "differs",
                Json::Bool(compared.is_some_and(|compared| compared.differs())),
            ),
        ])
    })
}

/// The bounds, as an object.
pub fn bounds(bounds: &[Bound]) -> Json {
    let members = bounds.iter().map(|bound| {
        let values = Json::Object(vec![
            ("stated", Json::Double(bound.values.stated)),
            ("actual", Json::Double(bound.values.actual)),
            ("differs", Json::Bool(bound.values.differs())),
            ("stored", bound.stored.map_or(Json::Null, Json::number)),
        ]);
        (bound.member, values)
    });
    Json::Object(members.collect())
}

/// The keys of the GeoKey directory, or why there are none.
pub fn geokeys<'a>(facts: &'a Facts<'_>) -> LazyJson<'a> {
    LazyJson::Object(vec![
        ("refusal", refusal(facts.geokeys.refusal.as_ref())),
        ("keys", LazyJson::each(facts.geokeys.keys.iter(), key)),
    ])
}

fn key(entry: &GeoKey) -> Json {
    let found = entry.value.as_ref();
    let value = found.and_then(|found| found.as_ref().ok());
    let refused = found.and_then(|found| found.as_ref().err());
    let mut members = Vec::from(key_named(entry.key));
    members.extend(value_of(entry.key, value));
    members.push(("refusal", refusal(refused)));
    members.push(("repeated", Json::Bool(found.is_none())));
    Json::Object(members)
}

/// A key and its name, as members of an object.
pub fn key_named(key: u16) -> [(&'static str, Json); 2] {
    [
        ("key", Json::number(key)),
        ("name", optional(geokeys::name(key))),
    ]
}

/// The value of a key, as members of an object, which are all null where there is none.
pub fn value_of(key: u16, value: Option<&Value>) -> [(&'static str, Json); 4] {
    let (kind, shown) = match value {
        Some(Value::Short(short)) => (Some("short"), Json::number(*short)),
        Some(Value::Double(double)) => (Some("double"), Json::Double(*double)),
        Some(Value::Text(shown, _)) => (Some("text"), Json::text(shown::text(shown))),
        None => (None, Json::Null),
    };
    let meaning = match value {
        Some(Value::Short(short)) => geokeys::meaning(key, *short),
        _ => None,
    };
    let text_length = match value {
        Some(Value::Text(_, length)) => Json::count(*length),
        _ => Json::Null,
    };
    [
        ("kind", optional(kind)),
        ("value", shown),
        ("meaning", optional(meaning)),
        ("text_length", text_length),
    ]
}

/// A refusal, or nothing.
pub fn refusal(refused: Option<&Error>) -> Json {
    refused.map_or(Json::Null, |refused| {
        Json::Object(vec![
            ("number", Json::number(refused.number())),
            ("words", Json::text(refused.words())),
        ])
    })
}

/// A text, or nothing.
fn optional(text: Option<&str>) -> Json {
    text.map_or(Json::Null, Json::text)
}

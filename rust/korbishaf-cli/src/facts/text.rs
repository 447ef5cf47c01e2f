//! Facts as text.

use super::class::Flag;
use super::geokeys::{self, GeoKey, Value};
use super::header::Field;
use super::parts::Part;
use super::stated::{Bound, Compared};
use super::{Facts, class, records};
use crate::shown::{self, counted};
use crate::table::{Side, Table};
use korbishaf::{Error, Record};
use std::fmt::Display;

/// The fields of a header.
pub fn header(fields: &[Field<'_>]) -> impl Display {
    let rows = fields.iter();
    Table::new(
        &[],
        rows.map(|field| [field.name.to_string(), field.value.text()]),
    )
}

/// The parts beside header, records and points.
pub fn parts(facts: &Facts<'_>) -> impl Display {
    let rows = facts.parts.named().into_iter().map(|(name, _, part)| {
        [
            name.to_string(),
            part.length.to_string(),
            zeros(part).to_string(),
        ]
    });
    Table::new(&[Side::Left, Side::Right], rows)
}

/// Whether a part's bytes are all zero; nothing where there are none.
fn zeros(part: Part) -> &'static str {
    match part {
        Part { length: 0, .. } => "",
        Part { all_zero: true, .. } => "all zero",
        _ => "not all zero",
    }
}

/// Records, each with its number in the file, from 1.
pub fn records<'a>(
    records: impl Iterator<Item = (usize, Record<'a>)> + Clone,
) -> Table<impl Iterator<Item = [String; 5]> + Clone> {
    let rows = records.map(|(number, record)| {
        [
            number.to_string(),
            records::name(&record),
            counted(record.payload.len(), "byte"),
            format!("\"{}\"", shown::text(record.description)),
            records::well_known(&record).unwrap_or_default().to_string(),
        ]
    });
    Table::new(&[Side::Right, Side::Left, Side::Right], rows)
}

/// Numbers of points by class.
pub fn classes(
    counts: impl Iterator<Item = (u8, u64)> + Clone,
) -> Table<impl Iterator<Item = [String; 3]> + Clone> {
    let rows = counts.map(|(class, points)| {
        let name = class::name(class).to_string();
        [class.to_string(), name, points.to_string()]
    });
    Table::new(&[Side::Right, Side::Left, Side::Right], rows)
}

/// Numbers of points by flag.
pub fn flags(
    counts: impl Iterator<Item = (Flag, u64)> + Clone,
) -> Table<impl Iterator<Item = [String; 2]> + Clone> {
    let rows = counts.map(|(flag, points)| [flag.name.to_string(), points.to_string()]);
    Table::new(&[Side::Left, Side::Right], rows)
}

/// Numbers of points by return number. The header states them for 1 to 5.
pub fn returns(facts: &Facts<'_>) -> impl Display {
    let stated = facts.returns();
    let counts = facts.tally.by_return.into_iter().enumerate();
    let rows = counts.map(move |(number, points)| {
        let compared = number.checked_sub(1).and_then(|bin| stated.get(bin));
        [
            number.to_string(),
            compared.map_or("-".to_string(), |compared| compared.stated.to_string()),
            points.to_string(),
            mark(compared).to_string(),
        ]
    });
    let titles = ["", "stated", "actual", ""].map(String::from);
    Table::new(&[Side::Right; 3], [titles].into_iter().chain(rows))
}

/// The bounds, with the stored values that the actual ones come from.
pub fn bounds(bounds: &[Bound]) -> impl Display {
    let titles = ["", "stated", "actual", "stored", ""].map(String::from);
    let rows = bounds.iter().map(|bound| {
        let (stated, actual) = (bound.values.stated, bound.values.actual);
        let stored = bound.stored.map_or("-".into(), |stored| stored.to_string());
        [
            bound.name.to_string(),
            format!("{stated:?}"),
            format!("{actual:?}"),
            stored,
            mark(Some(&bound.values)).to_string(),
        ]
    });
    Table::new(
        &[Side::Left, Side::Right, Side::Right, Side::Right],
        [titles].into_iter().chain(rows),
    )
}

/// The mark of a stated value that is not the actual one.
fn mark<T: PartialEq>(compared: Option<&Compared<T>>) -> &'static str {
    match compared {
        Some(compared) if compared.differs() => "differs",
        _ => "",
    }
}

/// The keys of the GeoKey directory, or a line that says why there are none.
pub fn geokeys(facts: &Facts<'_>) -> impl Display {
    let why_none = match facts.geokeys.refusal {
        Some(refused) if refused.number() == 40 => {
            "there is no GeoKey directory (record LASF_Projection 34735)".into()
        }
        Some(refused) => refused.to_string(),
        None => "the GeoKey directory has no keys".into(),
    };
    let rows = facts.geokeys.keys.iter().map(|entry| {
        let name = key_name(entry.key).to_string();
        [entry.key.to_string(), name, value(entry)]
    });
    Table::new(&[Side::Right], rows).or(why_none)
}

/// The name of a key.
pub fn key_name(key: u16) -> &'static str {
    geokeys::name(key).unwrap_or("unknown key")
}

/// The value of an entry, or why there is none.
fn value(entry: &GeoKey) -> String {
    match &entry.value {
        Some(found) => found_for(entry.key, found),
        None => "not looked at, since the key's first entry counts".into(),
    }
}

/// What was found for a key: its value, or why there is none.
pub fn found_for(key: u16, found: &Result<Value, Error>) -> String {
    match found {
        Ok(Value::Short(short)) => match geokeys::meaning(key, *short) {
            Some(meaning) => format!("{short} ({meaning})"),
            None => short.to_string(),
        },
        Ok(Value::Double(double)) => format!("{double:?}"),
        Ok(Value::Text(shown, length)) if shown.len() < *length => {
            let shown = shown::text(shown);
            format!("\"{shown}\" and more, {length} bytes in all")
        }
        Ok(Value::Text(shown, _)) => format!("\"{}\"", shown::text(shown)),
        Err(refused) => refused.to_string(),
    }
}

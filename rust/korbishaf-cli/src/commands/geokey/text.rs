//! What `geokey` says to a person.

use super::lookup::Lookup;
use crate::facts::geokeys::{self, Value};
use crate::facts::text::{found_for, key_name};
use korbishaf::{Error, GeoKeyValue};

/// What is said where the two lookups differ.
const WARNING: &str = "warning: the answers differ, since the directory's keys do not rise strictly; \
                       do not rely on halving in this file";

/// The key with its value, in a line as `show` has it, and what halving gives.
pub fn found(lookup: &Lookup<'_>) -> String {
    let (key, name) = (lookup.key, key_name(lookup.key));
    format!(
        "{key}  {name}  {}\n{}\n",
        shown(key, lookup.plain),
        halving(lookup)
    )
}

/// Why there is no value of the key in a file of that name, and what halving gives.
pub fn refused(name: &str, lookup: &Lookup<'_>, refused: &Error) -> String {
    let key = match geokeys::name(lookup.key) {
        Some(key_name) => format!("key {}, {key_name}", lookup.key),
        None => format!("key {}", lookup.key),
    };
    format!("{name}: {refused} ({key})\n{}", halving(lookup))
}

/// How many entries halving read, and what it found, if that is something else.
fn halving(lookup: &Lookup<'_>) -> String {
    let (reads, entries) = (lookup.halved.reads, lookup.entries);
    let of_all = if entries == 1 { "entry" } else { "entries" };
    let found = if lookup.differs() {
        format!("{}\n{WARNING}", shown(lookup.key, lookup.halved.value))
    } else {
        "the same".into()
    };
    format!("by halving ({reads} of {entries} {of_all} read): {found}")
}

/// A value as `show` has it, or why there is none.
fn shown(key: u16, value: Result<GeoKeyValue<'_>, Error>) -> String {
    found_for(key, &value.map(Value::from))
}

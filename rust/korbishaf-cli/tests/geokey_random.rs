//! `korbishaf geokey`, as a process, on random directories, against `las_plain`.

mod common;

use common::json::{self, Value};
use common::{Ran, Scratch};
use compare::rng::{Rng, seeds};
use compare::spec::{FileSpec, random_geokeys};
use las_plain::{GeoValue, LasFile, Refusal, find_by_halving};
use std::collections::BTreeSet;

/// How many files are tried for each seed.
const FILES: usize = 150;

/// A value as the command's JSON has it, but for the text, of which only the length is compared.
fn value(found: &Value, of: &str) -> Result<String, u64> {
    let refused = format!("{of}refusal");
    if !of.is_empty() && found.at(&refused) != &Value::Null {
        return Err(found.at(&format!("{refused}/number")).number());
    }
    let value = found.at(&format!("{of}value"));
    Ok(match found.at(&format!("{of}kind")).text() {
        "short" => format!("short {}", value.number()),
        "double" => double(value.double()),
        _ => format!("text of {}", found.at(&format!("{of}text_length")).number()),
    })
}

/// The same of a value of `las_plain`.
fn plain_value(value: Result<GeoValue, Refusal>) -> Result<String, u64> {
    let value = value.map_err(|refused| refused.number())?;
    Ok(match value {
        GeoValue::Short(short) => format!("short {short}"),
        GeoValue::Double(bits) => double(f64::from_bits(bits)),
        GeoValue::Text { length, .. } => format!("text of {length}"),
    })
}

/// A double by its bits. JSON does not tell one NaN from another.
fn double(double: f64) -> String {
    match double.is_nan() {
        true => "double NaN".into(),
        false => format!("double {:x}", double.to_bits()),
    }
}

/// Compares what is printed for a key, and gives the number of both lookups.
fn try_key(scratch: &Scratch, file: &[u8], key: u16) -> (u64, u64) {
    let plain = LasFile::open(file).and_then(|file| file.geokey(key));
    let halved = find_by_halving(file, key);
    let number = |value: Result<GeoValue, Refusal>| value.map_or_else(|no| no.number(), |_| 0);
    let numbers = (number(plain), number(halved.value));
    let ran = scratch.says(&format!("geokey --json in.las {key}"));
    if numbers.0 != 0 {
        refuses(&ran, numbers.0, halved.reads);
        return numbers;
    }
    assert_eq!((ran.status, ran.err.as_str()), (Some(0), ""));
    let found = json::read(&ran.out).expect("JSON");
    assert_eq!(value(&found, ""), plain_value(plain));
    assert_eq!(value(&found, "by_halving/"), plain_value(halved.value));
    let reads = found.at("by_halving/entries_read").number();
    assert_eq!(reads, halved.reads);
    numbers
}

/// Asserts that a key is refused, with the entries that were read where there is a directory.
fn refuses(ran: &Ran, number: u64, reads: u64) {
    assert_eq!((ran.status, ran.out.as_str()), (Some(1), ""));
    let words = format!("in.las: refused {number}: ");
    assert!(ran.err.starts_with(&words), "{}", ran.err);
    let halving = format!("\nby halving ({reads} of ");
    assert_eq!(ran.err.contains(&halving), number >= 42, "{}", ran.err);
}

#[test]
fn random_directories() {
    let mut seen = BTreeSet::new();
    for seed in seeds() {
        let mut rng = Rng::new(seed);
        let scratch = Scratch::new();
        for _ in 0..FILES {
            let mut spec = FileSpec::random(&mut rng);
            spec.records.extend(random_geokeys(&mut rng));
            let file = spec.bytes();
            scratch.write("in.las", &file);
            let key = rng.from_to(1024, 1030) as u16;
            seen.insert(try_key(&scratch, &file, key));
        }
    }
    for both in [(0, 0), (0, 42), (40, 40), (41, 41), (42, 42)] {
        assert!(seen.contains(&both), "{both:?} of {seen:?}");
    }
}

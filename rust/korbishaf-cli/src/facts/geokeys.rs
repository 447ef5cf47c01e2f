//! The keys of a file's GeoKey directory.

pub use super::key_names::{key_named, meaning, name, name_with};

use super::projection;
use super::records::DIRECTORY;
use korbishaf::{Error, GeoKeyValue, Records, geokey};
use std::collections::HashSet;

/// How many bytes of a text are shown. Every key of a directory may have the same long text.
const SHOWN: usize = 255;

/// The GeoKeys of a file, in the order of its first directory.
#[derive(Debug)]
pub struct GeoKeys {
    /// Why there are none to read: 40 or 41.
    pub refusal: Option<Error>,
    /// The keys.
    pub keys: Vec<GeoKey>,
}

/// An entry of the directory.
#[derive(Debug)]
pub struct GeoKey {
    /// The key.
    pub key: u16,
    /// Where its value is: 0 for the directory itself, or a record ID.
    pub location: u16,
    /// The library's answer for the key; none where an entry before this one has it, since the first counts.
    pub value: Option<Result<Value, Error>>,
}

/// The value of a key.
#[derive(Clone, Debug, PartialEq)]
pub enum Value {
    /// A value in the directory itself.
    Short(u16),
    /// A value in the record of doubles.
    Double(f64),
    /// A text: as many of its bytes as are shown, and its length.
    Text(Vec<u8>, usize),
}

impl From<GeoKeyValue<'_>> for Value {
    fn from(value: GeoKeyValue<'_>) -> Self {
        match value {
            GeoKeyValue::Short(short) => Value::Short(short),
            GeoKeyValue::Double(double) => Value::Double(double),
            GeoKeyValue::Text(text) => {
                let shown = text.iter().take(SHOWN).copied().collect();
                Value::Text(shown, text.len())
            }
        }
    }
}

impl GeoKeys {
    /// The keys of a file that passes, with what the library answers for each.
    pub fn of(file: &[u8], records: &Records<'_>) -> Self {
        let alone = projection::alone(file, records);
        // 40 and 41 are the same for every key
        let refusal = geokey(&alone, 0).err();
        if let Some(refusal) = refusal.filter(|refused| matches!(refused.number(), 40 | 41)) {
            return GeoKeys {
                refusal: Some(refusal),
                keys: Vec::new(),
            };
        }
        let directory = projection::first(records.clone(), DIRECTORY);
        let payload = directory.map_or(&[][..], |record| record.payload);
        let mut seen = HashSet::new();
        let keys = entries(payload).map(|[key, location, ..]| GeoKey {
            key,
            location,
            value: seen
                .insert(key)
                .then(|| geokey(&alone, key).map(Value::from)),
        });
        GeoKeys {
            refusal: None,
            keys: keys.collect(),
        }
    }

    /// The first key that has its value in a parameter record. Only the first entry of each key counts.
    pub fn first_at(&self, location: u16) -> Option<u16> {
        let mut counting = self.keys.iter().filter(|key| key.value.is_some());
        counting
            .find(|key| key.location == location)
            .map(|key| key.key)
    }
}

/// The number of entries of a file's directory, which is one that passes.
pub fn entry_count(records: Records<'_>) -> usize {
    let directory = projection::first(records, DIRECTORY);
    directory.map_or(0, |record| entries(record.payload).count())
}

/// The entries of a directory's payload: key, location, count, value offset. Those behind the stated number are none.
fn entries(payload: &[u8]) -> impl Iterator<Item = [u16; 4]> {
    let mut rows = payload.as_chunks::<8>().0.iter().map(|row| {
        let [a, b, c, d, e, f, g, h] = *row;
        [[a, b], [c, d], [e, f], [g, h]].map(u16::from_le_bytes)
    });
    let count = rows.next().map_or(0, |[.., count]| count);
    rows.take(count.into())
}

#[cfg(test)]
mod tests {
    use super::*;
    use compare::rng::{Rng, seeds};
    use compare::spec::{FileSpec, random_geokeys};
    use std::collections::BTreeSet;

    /// What the library answers for the whole file. Doubles are compared by their bits.
    fn answer(file: &[u8], key: u16) -> Result<String, u64> {
        let answer = geokey(file, key).map_err(|refused| refused.number())?;
        Ok(bits(&Value::from(answer)))
    }

    fn bits(value: &Value) -> String {
        match value {
            Value::Double(double) => format!("double {:x}", double.to_bits()),
            other => format!("{other:?}"),
        }
    }

    #[test]
    fn keys_have_the_answers_that_the_whole_file_has() {
        let mut numbers = BTreeSet::new();
        for seed in seeds() {
            let mut rng = Rng::new(seed);
            for _ in 0..2000 {
                let mut spec = FileSpec::random(&mut rng);
                spec.records.extend(random_geokeys(&mut rng));
                // only the first record of each name counts
                if rng.chance(30) {
                    spec.records.extend(random_geokeys(&mut rng));
                }
                let file = spec.bytes();
                let found = GeoKeys::of(&file, &korbishaf::records(&file).unwrap());
                if let Some(refusal) = found.refusal {
                    assert_eq!(answer(&file, 1024), Err(refusal.number()));
                    numbers.insert(refusal.number());
                }
                for entry in found.keys {
                    let Some(value) = entry.value else { continue };
                    let value = value
                        .map(|value| bits(&value))
                        .map_err(|refused| refused.number());
                    assert_eq!(value, answer(&file, entry.key));
                    numbers.insert(value.err().unwrap_or(0));
                }
            }
        }
        assert_eq!(numbers, BTreeSet::from([0, 40, 41, 43, 44, 45, 46]));
    }
}

//! A key looked up in both ways.

use crate::facts::geokeys::entry_count;
use korbishaf::{Error, GeoKeyRead, GeoKeyValue, geokey, geokey_by_halving, records};

/// What both lookups of a key give, in a file that has a directory.
pub struct Lookup<'a> {
    /// The key.
    pub key: u16,
    /// What the plain lookup gives, or 42 to 46. It is the answer: the first entry of a key counts.
    pub plain: Result<GeoKeyValue<'a>, Error>,
    /// What halving gives.
    pub halved: GeoKeyRead<'a>,
    /// How many entries the directory has.
    pub entries: usize,
}

impl<'a> Lookup<'a> {
    /// Looks a key up; 1 to 10 where the file does not pass, and 40 or 41 where there are no entries to read.
    pub fn of(file: &'a [u8], key: u16) -> Result<Self, Error> {
        let records = records(file)?;
        let plain = geokey(file, key);
        match plain {
            Err(refused) if refused.number() < 42 => Err(refused),
            _ => Ok(Lookup {
                key,
                plain,
                halved: geokey_by_halving(file, key),
                entries: entry_count(records),
            }),
        }
    }

    /// Whether halving gives something else, as it may where the directory's keys do not rise strictly.
    pub fn differs(&self) -> bool {
        match (&self.plain, &self.halved.value) {
            // of doubles every bit counts, and a NaN is the same as itself
            (Ok(GeoKeyValue::Double(plain)), Ok(GeoKeyValue::Double(halved))) => {
                plain.to_bits() != halved.to_bits()
            }
            (plain, halved) => plain != halved,
        }
    }
}

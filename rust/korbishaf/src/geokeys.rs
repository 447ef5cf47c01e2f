//! GeoKeys.

use crate::error::{Error, passes};
use crate::{narrow, part, sys};

/// The value of a GeoKey.
#[derive(Clone, Copy, Debug, PartialEq)]
pub enum GeoKeyValue<'a> {
    /// A value in the directory itself (location 0).
    Short(u16),
    /// A value in the record of doubles (location 34736).
    Double(f64),
    /// A text in the record of texts (location 34737): a part of the file, with all its bytes.
    Text(&'a [u8]),
}

/// What a lookup by halving gives.
#[derive(Clone, Copy, Debug, PartialEq)]
pub struct GeoKeyRead<'a> {
    /// The value of the key, or why there is none.
    pub value: Result<GeoKeyValue<'a>, Error>,
    /// How many entries of the key directory were read: 0 to 13. They stand beside a value and beside 42 to 46; beside
    /// other numbers, with which no entry is read, this is 0.
    pub reads: u64,
}

/// Looks a GeoKey up, in a file's first key directory (the record `LASF_Projection`, 34735). Of several entries with
/// that key the first counts.
///
/// # Errors
///
/// 1 to 10 where the file does not pass, then 40 to 46 where the key or its value is not found.
pub fn geokey(file: &[u8], key: u16) -> Result<GeoKeyValue<'_>, Error> {
    // SAFETY: pointer and length are those of one slice.
    value_in(file, unsafe {
        sys::las_geokey_find(file.as_ptr(), file.len() as u64, key)
    })
}

/// Looks a GeoKey up by halving: it reads at most 13 entries of the directory, which may have 8,190.
///
/// Of n entries that are left, entry n/2 is read, rounded down and counted from 0. An equal key ends the search, a
/// larger one leaves the entries before it, a smaller one those behind it, and where none is left the number is 42.
///
/// Where the keys of the directory rise strictly, the answer is that of [`geokey`]. In any other directory halving may
/// miss a key that is there, and of equal keys may find another than the first, so that [`geokey`] is the lookup to use
/// where nobody has looked whether they rise.
///
/// A refusal has the numbers of [`geokey`]. It is in [`GeoKeyRead::value`], and the entries that were read are beside
/// it.
///
/// ```
/// use korbishaf::{GeoKeyValue, geokey, geokey_by_halving};
///
/// let mut file = vec![0; 227];
/// file[..4].copy_from_slice(b"LASF");
/// file[24..26].copy_from_slice(&[1, 2]); // version 1.2
/// file[94] = 227; // header size
/// file[96..98].copy_from_slice(&313u16.to_le_bytes()); // offset to points
/// file[100] = 1; // number of records
/// file[105] = 20; // record length, of point format 0
/// for scale in [131, 139, 147] {
///     file[scale..scale + 8].copy_from_slice(&0.5f64.to_le_bytes());
/// }
/// let mut record = [0; 54];
/// record[2..17].copy_from_slice(b"LASF_Projection"); // user ID
/// record[18..20].copy_from_slice(&34735u16.to_le_bytes()); // record ID
/// record[20] = 32; // payload length
/// file.extend(record);
/// for row in [
///     [1, 1, 0, 3], // a directory of three keys
///     [1024, 0, 1, 1],
///     [2048, 0, 1, 4326],
///     [3072, 0, 1, 32633],
/// ] {
///     file.extend(row.map(u16::to_le_bytes).concat());
/// }
///
/// let found = geokey_by_halving(&file, 3072);
/// assert_eq!(found.value, Ok(GeoKeyValue::Short(32633)));
/// assert_eq!(found.reads, 2); // 2048, and then 3072
/// assert_eq!(found.value, geokey(&file, 3072));
///
/// let missed = geokey_by_halving(&file, 1026);
/// assert_eq!(missed.value.unwrap_err().number(), 42);
/// assert_eq!(missed.reads, 2);
/// ```
#[must_use]
pub fn geokey_by_halving(file: &[u8], key: u16) -> GeoKeyRead<'_> {
    // SAFETY: pointer and length are those of one slice.
    let found = unsafe { sys::las_geokey_halve(file.as_ptr(), file.len() as u64, key) };
    let answer = sys::las_geokey {
        number: found.number,
        location: found.location,
        value: found.value,
        length: found.length,
    };
    GeoKeyRead {
        value: value_in(file, answer),
        reads: found.reads,
    }
}

/// The value that an answer for this file speaks of, or the refusal that it is.
fn value_in(file: &[u8], found: sys::las_geokey) -> Result<GeoKeyValue<'_>, Error> {
    passes(found.number)?;
    Ok(match found.location {
        34736 => GeoKeyValue::Double(f64::from_bits(found.value)),
        34737 => GeoKeyValue::Text(part(file, found.value, found.length)),
        _ => GeoKeyValue::Short(narrow(found.value)),
    })
}

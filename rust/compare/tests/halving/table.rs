//! Directories of keys, lookups by halving in them, and what is due of these.

use std::cmp::Ordering;
use std::collections::BTreeSet;

use compare::answers::GeoKeyRead;
use compare::compared::Compared;
use compare::spec::{FileSpec, RecordSpec, directory, projection};

pub const DIRECTORY: u16 = 34735;
pub const DOUBLES: u16 = 34736;
pub const TEXTS: u16 = 34737;

/// An entry of a directory: key, location, count and value offset.
pub type Entry = [u16; 4];

/// A file with these records and one point.
pub fn file_with(records: Vec<RecordSpec>) -> Vec<u8> {
    FileSpec {
        records,
        points: vec![vec![1; 20]],
        ..FileSpec::bare(0)
    }
    .bytes()
}

/// The directory of these entries.
pub fn directory_of(entries: &[Entry]) -> RecordSpec {
    counting(entries.len(), entries)
}

/// A directory of these entries that counts so many.
pub fn counting(count: usize, entries: &[Entry]) -> RecordSpec {
    projection(DIRECTORY, directory([1, 1, 0, count as u16], entries))
}

/// An entry for each key; its value is its place, counted from 0.
pub fn entries(keys: &[u16]) -> Vec<Entry> {
    let places = keys.iter().zip(0..);
    places.map(|(&key, place)| [key, 0, 1, place]).collect()
}

/// A file with a directory of these keys, each with its place for a value.
pub fn file_of(keys: &[u16]) -> Vec<u8> {
    file_with(vec![directory_of(&entries(keys))])
}

/// So many keys from `first` on, each `step` above the one before.
pub fn rising(first: u16, step: u16, count: usize) -> Vec<u16> {
    let key = |place: usize| first + place as u16 * step;
    (0..count).map(key).collect()
}

/// The places of the entries that halving reads for a key, in turn: the middle one, and then those of one half.
pub fn way(keys: &[u16], key: u16) -> Vec<usize> {
    let (before, rest) = keys.split_at(keys.len() / 2);
    let Some((middle, after)) = rest.split_first() else {
        return Vec::new();
    };
    let place = before.len();
    let further = match middle.cmp(&key) {
        Ordering::Equal => Vec::new(),
        Ordering::Greater => way(before, key),
        Ordering::Less => {
            let of_half = way(after, key);
            of_half.into_iter().map(|at| place + 1 + at).collect()
        }
    };
    [vec![place], further].concat()
}

/// The place of the entry that halving finds, if any, and how many it reads.
pub fn halved(keys: &[u16], key: u16) -> (Option<usize>, usize) {
    let way = way(keys, key);
    let last = way.last().copied();
    (last.filter(|&place| keys[place] == key), way.len())
}

/// The answer of a directory of these keys, each with its place for a value.
pub fn due(keys: &[u16], key: u16) -> GeoKeyRead {
    match halved(keys, key) {
        (Some(place), reads) => found(place, reads),
        (None, reads) => refused(42, reads),
    }
}

/// The answer where an entry has this value itself, after so many reads.
pub fn found(value: usize, reads: usize) -> GeoKeyRead {
    GeoKeyRead {
        value: value as u64,
        ..refused(0, reads)
    }
}

/// A refusal after so many reads, with zeros for the rest.
pub fn refused(number: u64, reads: usize) -> GeoKeyRead {
    GeoKeyRead {
        number,
        reads: reads as u64,
        ..GeoKeyRead::default()
    }
}

/// Whether each key is larger than the one before.
pub fn rise(keys: &[u16]) -> bool {
    keys.is_sorted_by(|one, next| one < next)
}

/// The keys, those just below and above them, and the ends of all numbers.
pub fn around(keys: &[u16]) -> BTreeSet<u16> {
    let near = |&key: &u16| [key.saturating_sub(1), key, key.saturating_add(1)];
    keys.iter().flat_map(near).chain([0, u16::MAX]).collect()
}

/// Asks a directory of these keys. Both lookups give what is due of each, which is the same where the keys rise.
pub fn assert_due(compared: &mut Compared, keys: &[u16], asked: impl IntoIterator<Item = u16>) {
    let (file, rising) = (file_of(keys), rise(keys));
    let name = match keys.len() {
        0..50 => format!("{keys:?}"),
        count => format!("{count} keys"),
    };
    for key in asked {
        compared.case(format!("{name}, asked for {key}"));
        let (plain, halving) = compared.geokey_lookups(&file, key);
        assert_eq!(halving, due(keys, key), "{name}, asked for {key}");
        let first = keys.iter().position(|&own| own == key);
        let first = first.map_or(refused(42, 0), |place| found(place, 0));
        assert_eq!(plain, first.geokey(), "{name}, asked for {key}");
        let same = halving.geokey() == plain;
        assert!(same || !rising, "{name}, asked for {key}");
    }
}

#[test]
fn ways_are_those_that_are_written_here() {
    assert_eq!(way(&[], 5), []);
    assert_eq!(way(&[5], 5), [0]);
    assert_eq!(way(&[10, 20], 10), [1, 0]);
    assert_eq!(way(&[10, 20, 30], 25), [1, 2]);
    assert_eq!(way(&[10, 20, 30, 40, 50, 60, 70], 45), [3, 5, 4]);
    assert_eq!(way(&[10, 20, 30, 40, 50, 60, 70, 80], 5), [4, 2, 1, 0]);
}

#[test]
fn due_answers_are_those_that_are_written_here() {
    assert_eq!(due(&[], 7), refused(42, 0));
    assert_eq!(due(&[7], 7), found(0, 1));
    assert_eq!(due(&[7, 7], 7), found(1, 1));
    assert_eq!(due(&[9, 7], 9), refused(42, 1));
    assert!(rise(&[]) && rise(&[7]) && rise(&[7, 8]));
    assert!(!rise(&[7, 7]) && !rise(&[8, 7]) && !rise(&[1, 3, 2]));
}

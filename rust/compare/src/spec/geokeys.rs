//! GeoKey directories and their parameter records.

use super::record::RecordSpec;
use super::text::{padded, random_text, with_tail};
use crate::rng::Rng;

const DIRECTORY: u16 = 34735;
const DOUBLES: u16 = 34736;
const TEXTS: u16 = 34737;

/// A record with the GeoKeys' user ID.
pub fn projection(record_id: u16, payload: impl Into<Vec<u8>>) -> RecordSpec {
    RecordSpec {
        reserved: [0; 2],
        user: padded(b"LASF_Projection"),
        record_id,
        description: [0; 32],
        payload: payload.into(),
    }
}

/// A directory's payload: its head of four numbers, then the entries.
pub fn directory(head: [u16; 4], entries: &[[u16; 4]]) -> Vec<u8> {
    let numbers = head.iter().chain(entries.iter().flatten());
    numbers.flat_map(|number| number.to_le_bytes()).collect()
}

/// The keys that a directory's entries have, read without any check.
pub fn keys_of(records: &[RecordSpec]) -> Vec<u16> {
    records
        .iter()
        .filter(|record| record.record_id == DIRECTORY)
        .flat_map(|record| record.payload.chunks_exact(8).skip(1))
        .map(|entry| u16::from_le_bytes([entry[0], entry[1]]))
        .collect()
}

/// A directory, doubles and texts, most of them sound, in any order; some
/// are absent, some stand twice.
pub fn random_geokeys(rng: &mut Rng) -> Vec<RecordSpec> {
    let (doubles, text) = (rng.below(6), rng.below(40));
    let mut records = Vec::new();
    for (record_id, length) in [(DIRECTORY, 0), (DOUBLES, 8 * doubles), (TEXTS, text)] {
        for _ in 0..rng.pick(&[0, 1, 1, 1, 1, 1, 1, 2]) {
            let payload = match record_id {
                DIRECTORY => random_directory(rng, doubles, text),
                _ => {
                    let uneven = if rng.chance(20) { rng.below(8) } else { 0 };
                    rng.bytes(length + uneven)
                }
            };
            let place = rng.from_to(0, records.len());
            records.insert(place, odd_projection(rng, record_id, payload));
        }
    }
    records
}

fn odd_projection(rng: &mut Rng, record_id: u16, payload: Vec<u8>) -> RecordSpec {
    RecordSpec {
        reserved: rng.array(),
        user: with_tail(rng, b"LASF_Projection"),
        description: random_text(rng),
        ..projection(record_id, payload)
    }
}

fn random_directory(rng: &mut Rng, doubles: usize, text: usize) -> Vec<u8> {
    let keys = rng.below(8);
    let entries: Vec<[u16; 4]> = (0..keys)
        .map(|_| random_entry(rng, doubles, text))
        .collect();
    let mut head = [1, 1, 0, keys as u16];
    if rng.chance(10) {
        let place = rng.below(4);
        head[place] = rng.pick(&[0, 1, 2, keys as u16 + 1, 256, 65535]);
    }
    let mut payload = directory(head, &entries);
    match rng.below(12) {
        0 => payload.truncate(rng.from_to(0, payload.len())),
        1 => payload.extend(rng.some_bytes(12)),
        _ => {}
    }
    payload
}

fn random_entry(rng: &mut Rng, doubles: usize, text: usize) -> [u16; 4] {
    let key = rng.from_to(1024, 1030) as u16;
    let near = |rng: &mut Rng, edge: usize| (edge + rng.below(4)).saturating_sub(2) as u16;
    let (location, mut count, value) = match rng.below(10) {
        0..3 => (0, 1, rng.next() as u16),
        3..6 => (DOUBLES, 1, near(rng, doubles)),
        6..9 => {
            let start = rng.from_to(0, text + 1);
            (TEXTS, near(rng, text.saturating_sub(start)), start as u16)
        }
        _ => (rng.pick(&[1, 34735, 34738, 34767, 65535]), 1, 0),
    };
    if rng.chance(10) {
        count = rng.pick(&[0, 1, 2, 65535]);
    }
    [key, location, count, value]
}

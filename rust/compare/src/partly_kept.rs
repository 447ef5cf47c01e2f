//! Files of which one sheet keeps some and some not, and changes of what is outside their public part.

use crate::rng::Rng;
use crate::spec::{
    CLASSIFICATION, FileSpec, KEY_POINT, LineSpec, RecordSpec, SYNTHETIC, SheetSpec, WITHHELD,
    padded, random_point_of, with_tail,
};

/// Classification bytes of points that the sheet keeps, and of others.
pub const KEPT_BYTES: [u8; 8] = [
    2,
    3,
    5,
    20,
    31,
    2 | KEY_POINT,
    4 | SYNTHETIC,
    31 | SYNTHETIC | KEY_POINT,
];
pub const DROPPED_BYTES: [u8; 9] = [
    0,
    1,
    6,
    19,
    6 | KEY_POINT,
    19 | SYNTHETIC,
    2 | WITHHELD,
    31 | WITHHELD | KEY_POINT,
    255,
];
/// User IDs and record IDs of records that the sheet keeps, and of others.
pub const KEPT_NAMES: [(&[u8], u16); 4] = [
    (b"user", 7),
    (b"user", 8),
    (b"users", 7),
    (b"sixteen letters!", 7),
];
pub const DROPPED_NAMES: [(&[u8], u16); 8] = [
    (b"user", 9),
    (b"use", 7),
    (b" user", 7),
    (b"us er", 7),
    (b"user\t", 7),
    (b"", 7),
    (b"sixteen letters?", 7),
    (b"LASF_Projection", 34735),
];

/// Keeps what is named so.
pub fn sheet() -> SheetSpec {
    let mut lines = vec![LineSpec::Classes(2, 5), LineSpec::Classes(20, 200)];
    lines.extend(KEPT_NAMES.map(|(name, record_id)| LineSpec::Record(padded(name), record_id)));
    SheetSpec::new(lines)
}

/// A random record of one of these names.
pub fn record(rng: &mut Rng, names: &[(&[u8], u16)]) -> RecordSpec {
    let (name, record_id) = rng.pick(names);
    RecordSpec {
        user: with_tail(rng, name),
        record_id,
        ..RecordSpec::random(rng)
    }
}

/// A random point of one of these classification bytes.
pub fn point(rng: &mut Rng, record_length: u16, bytes: &[u8]) -> Vec<u8> {
    let byte = rng.pick(bytes);
    random_point_of(rng, record_length, byte)
}

/// A file in which some records and points are kept and some are not.
pub fn mixed_file(rng: &mut Rng) -> FileSpec {
    let mut spec = FileSpec::random(rng);
    spec.records = (0..rng.below(7))
        .map(|_| {
            let names = if rng.chance(50) {
                KEPT_NAMES.as_slice()
            } else {
                &DROPPED_NAMES
            };
            record(rng, names)
        })
        .collect();
    spec.points = (0..rng.below(20))
        .map(|_| {
            let bytes = if rng.chance(50) {
                KEPT_BYTES.as_slice()
            } else {
                &DROPPED_BYTES
            };
            point(rng, spec.record_length, bytes)
        })
        .collect();
    spec
}

/// A change of a file.
pub type Change = fn(&mut Rng, &mut FileSpec);

/// Changes of things outside the public part.
pub const PRIVATE: [(&str, Change); 16] = [
    ("old counts by return", |rng, spec| {
        spec.old_by_return = std::array::from_fn(|_| rng.next() as u32);
    }),
    ("old bounds", |rng, spec| {
        spec.old_bounds = std::array::from_fn(|_| rng.next());
    }),
    ("extra header bytes", |rng, spec| {
        spec.header_extra = rng.some_bytes(70);
    }),
    ("gap bytes", |rng, spec| spec.gap = rng.some_bytes(150)),
    ("trailing bytes", |rng, spec| {
        spec.trailing = rng.some_bytes(150);
    }),
    ("trailing bytes that look like kept points", |rng, spec| {
        spec.trailing = point(rng, spec.record_length, &KEPT_BYTES);
    }),
    ("gap bytes that look like a kept record", |rng, spec| {
        spec.gap.clear();
        record(rng, &KEPT_NAMES).append_to(&mut spec.gap);
    }),
    ("reserved fields", |rng, spec| {
        spec.records
            .iter_mut()
            .for_each(|record| record.reserved = rng.array());
    }),
    ("text tails of the header", |rng, spec| {
        spec.system = with_tail(rng, &spec.system);
        spec.software = with_tail(rng, &spec.software);
    }),
    ("text tails of records", |rng, spec| {
        for record in &mut spec.records {
            record.user = with_tail(rng, &record.user);
            record.description = with_tail(rng, &record.description);
        }
    }),
    ("unkept records added", |rng, spec| {
        for _ in 0..rng.from_to(1, 3) {
            let place = rng.from_to(0, spec.records.len());
            spec.records.insert(place, record(rng, &DROPPED_NAMES));
        }
    }),
    ("unkept records changed", |rng, spec| {
        let sheet = sheet();
        let unkept = spec
            .records
            .iter_mut()
            .filter(|record| !sheet.keeps_record(record));
        unkept.for_each(|unkept| *unkept = record(rng, &DROPPED_NAMES));
    }),
    ("unkept records removed", |_, spec| {
        spec.records.retain(|record| sheet().keeps_record(record));
    }),
    ("dropped points added", |rng, spec| {
        for _ in 0..rng.from_to(1, 4) {
            let place = rng.from_to(0, spec.points.len());
            spec.points
                .insert(place, point(rng, spec.record_length, &DROPPED_BYTES));
        }
    }),
    ("dropped points changed", |rng, spec| {
        let dropped = spec
            .points
            .iter_mut()
            .filter(|point| DROPPED_BYTES.contains(&point[CLASSIFICATION]));
        dropped.for_each(|dropped| *dropped = point(rng, spec.record_length, &DROPPED_BYTES));
    }),
    ("dropped points removed", |_, spec| {
        spec.points
            .retain(|point| KEPT_BYTES.contains(&point[CLASSIFICATION]));
    }),
];

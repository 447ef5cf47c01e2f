//! A file in which everything that is not released has one byte value, and a sheet for it.

use compare::rng::{FIXED_SEED, Rng};
use compare::spec::{CLASSIFICATION, FileSpec, LineSpec, RecordSpec, SheetSpec, class_of, padded};

/// What the output holds before a release.
pub const MARKER: u8 = 0x5C;
/// Every byte of a kept point but its class, and of a kept record's payload.
const KEPT: u8 = 0x11;
/// Every byte that is not released but the class of points that are not withheld, and names and lengths of records.
pub const DROPPED: u8 = 0xA5;

const POINTS: usize = 200_000;
const PAYLOAD: usize = 60_000;
/// The class of a withheld point of dropped bytes alone: nothing but its flag holds that point back.
const KEPT_CLASS: u8 = class_of(DROPPED);
const DROPPED_CLASS: u8 = KEPT_CLASS + 1;
const NAME: &[u8] = b"power cut";
const KEPT_ID: u16 = 1;
const DROPPED_ID: u16 = 2;

/// The sheet: one class and one record.
pub fn sheet() -> Vec<u8> {
    let classes = LineSpec::Classes(KEPT_CLASS, KEPT_CLASS);
    let record = LineSpec::Record(padded(NAME), KEPT_ID);
    SheetSpec::new([classes, record]).bytes()
}

/// The file: half of the points are kept at random, a quarter are withheld, and one of two records is kept.
pub fn file() -> Vec<u8> {
    let mut rng = Rng::new(FIXED_SEED);
    FileSpec {
        system: text(b"system"),
        software: text(b"software"),
        old_by_return: [u32::from_le_bytes([DROPPED; 4]); 5],
        old_bounds: [u64::from_le_bytes([DROPPED; 8]); 6],
        header_extra: vec![DROPPED; 1_000],
        records: vec![record(DROPPED_ID, DROPPED), record(KEPT_ID, KEPT)],
        gap: vec![DROPPED; 10_000],
        points: (0..POINTS).map(|_| point(&mut rng)).collect(),
        trailing: vec![DROPPED; 10_000],
        ..FileSpec::bare(1)
    }
    .bytes()
}

/// A point that is kept, or of another class, or withheld.
fn point(rng: &mut Rng) -> Vec<u8> {
    let kept = (KEPT, KEPT_CLASS);
    let others = [(DROPPED, DROPPED_CLASS), (DROPPED, DROPPED)];
    let (byte, class_byte) = rng.pick(&[kept, kept, others[0], others[1]]);
    let mut point = vec![byte; 28];
    point[CLASSIFICATION] = class_byte;
    point
}

fn record(record_id: u16, byte: u8) -> RecordSpec {
    RecordSpec {
        reserved: [DROPPED; 2],
        user: text(NAME),
        record_id,
        description: text(b"description"),
        payload: vec![byte; PAYLOAD],
    }
}

/// The text, a zero, and behind it what is not released.
fn text<const N: usize>(text: &[u8]) -> [u8; N] {
    let mut field = [DROPPED; N];
    field[..text.len()].copy_from_slice(text);
    field[text.len()] = 0;
    field
}

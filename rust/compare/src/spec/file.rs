//! Whole files.

use super::boxes::TELLING;
use super::classification::{CLASSIFICATION, random_classification};
use super::geokeys::{projection, random_geokeys};
use super::record::RecordSpec;
use super::text::random_text;
use crate::rng::Rng;

/// The sizes of the point formats 0 to 3.
pub const POINT_SIZES: [u16; 4] = [20, 28, 26, 34];

/// Formats, each without and with extra bytes.
pub const LAYOUTS: [(u8, u16); 8] = [
    (0, 0),
    (0, 1),
    (1, 0),
    (1, 7),
    (2, 0),
    (2, 6),
    (3, 0),
    (3, 13),
];

/// A file. Header size, offset and counts follow from what it holds.
#[derive(Debug, Clone, PartialEq)]
pub struct FileSpec {
    /// Bytes 4 to 23: file source ID, global encoding, project GUID.
    pub front: [u8; 20],
    pub system: [u8; 32],
    pub software: [u8; 32],
    pub day: u16,
    pub year: u16,
    pub format: u8,
    pub record_length: u16,
    pub old_by_return: [u32; 5],
    pub scale: [f64; 3],
    pub offset: [f64; 3],
    /// The six old bounds by their bits.
    pub old_bounds: [u64; 6],
    pub header_extra: Vec<u8>,
    pub records: Vec<RecordSpec>,
    pub gap: Vec<u8>,
    pub points: Vec<Vec<u8>>,
    pub trailing: Vec<u8>,
}

impl FileSpec {
    /// A sound file of this format: a bare header, no records, no points.
    pub fn bare(format: u8) -> Self {
        Self {
            front: [0; 20],
            system: [0; 32],
            software: [0; 32],
            day: 1,
            year: 2008,
            format,
            record_length: POINT_SIZES[usize::from(format)],
            old_by_return: [0; 5],
            scale: [0.01; 3],
            offset: [0.0; 3],
            old_bounds: [0; 6],
            header_extra: Vec::new(),
            records: Vec::new(),
            gap: Vec::new(),
            points: Vec::new(),
            trailing: Vec::new(),
        }
    }

    /// A sound file with one record, three points, and bytes after them.
    pub fn common(format: u8) -> Self {
        let mut rng = Rng::new(u64::from(format));
        let mut spec = Self::bare(format);
        spec.records = vec![projection(7, b"payload".as_slice())];
        spec.points = (0..3)
            .map(|_| random_point(&mut rng, spec.record_length))
            .collect();
        spec.trailing = rng.bytes(100);
        spec
    }

    /// A sound file with anything in it that a sound file may have.
    pub fn random(rng: &mut Rng) -> Self {
        let format = rng.below(4) as u8;
        let extra = if rng.chance(60) {
            0
        } else {
            rng.from_to(1, 20) as u16
        };
        let record_length = POINT_SIZES[usize::from(format)] + extra;
        let points = if rng.chance(15) {
            0
        } else {
            rng.from_to(1, 30)
        };
        Self {
            front: rng.array(),
            system: random_text(rng),
            software: random_text(rng),
            day: rng.next() as u16,
            year: rng.next() as u16,
            format,
            record_length,
            old_by_return: std::array::from_fn(|_| rng.next() as u32),
            scale: std::array::from_fn(|_| random_scale(rng)),
            offset: std::array::from_fn(|_| random_offset(rng)),
            old_bounds: std::array::from_fn(|_| rng.next()),
            header_extra: rng.some_bytes(70),
            records: random_records(rng),
            gap: rng.some_bytes(80),
            points: (0..points)
                .map(|_| random_point(rng, record_length))
                .collect(),
            trailing: rng.some_bytes(70),
        }
    }

    pub fn header_size(&self) -> usize {
        227 + self.header_extra.len()
    }

    /// Where the records end.
    pub fn records_end(&self) -> usize {
        self.header_size() + self.records.iter().map(RecordSpec::size).sum::<usize>()
    }

    pub fn point_offset(&self) -> usize {
        self.records_end() + self.gap.len()
    }

    pub fn points_end(&self) -> usize {
        self.point_offset() + self.points.len() * usize::from(self.record_length)
    }

    pub fn bytes(&self) -> Vec<u8> {
        let mut file = self.header();
        file.extend(&self.header_extra);
        for record in &self.records {
            record.append_to(&mut file);
        }
        file.extend(&self.gap);
        file.extend(self.points.iter().flatten());
        file.extend(&self.trailing);
        file
    }

    fn header(&self) -> Vec<u8> {
        let mut header = b"LASF".to_vec();
        header.extend(self.front);
        header.extend([1, 2]);
        header.extend(self.system);
        header.extend(self.software);
        header.extend(self.day.to_le_bytes());
        header.extend(self.year.to_le_bytes());
        header.extend((self.header_size() as u16).to_le_bytes());
        header.extend((self.point_offset() as u32).to_le_bytes());
        header.extend((self.records.len() as u32).to_le_bytes());
        header.push(self.format);
        header.extend(self.record_length.to_le_bytes());
        header.extend((self.points.len() as u32).to_le_bytes());
        header.extend(
            self.old_by_return
                .iter()
                .flat_map(|count| count.to_le_bytes()),
        );
        let doubles = self.scale.iter().chain(&self.offset);
        header.extend(doubles.flat_map(|double| double.to_bits().to_le_bytes()));
        header.extend(self.old_bounds.iter().flat_map(|bits| bits.to_le_bytes()));
        header
    }
}

fn random_records(rng: &mut Rng) -> Vec<RecordSpec> {
    let count = rng.below(5);
    let mut records: Vec<RecordSpec> = (0..count).map(|_| RecordSpec::random(rng)).collect();
    if rng.chance(50) {
        let place = rng.from_to(0, records.len());
        records.splice(place..place, random_geokeys(rng));
    }
    records
}

/// A point record of any bytes; extremes, low classes and points without flags are frequent.
pub fn random_point(rng: &mut Rng, record_length: u16) -> Vec<u8> {
    let mut point = rng.bytes(record_length.into());
    for axis in 0..3 {
        if rng.chance(30) {
            let stored = rng.pick(&TELLING);
            point[4 * axis..4 * axis + 4].copy_from_slice(&stored.to_le_bytes());
        }
    }
    point[CLASSIFICATION] = random_classification(rng);
    point
}

/// A random point with this classification byte.
pub fn random_point_of(rng: &mut Rng, record_length: u16, byte: u8) -> Vec<u8> {
    let mut point = random_point(rng, record_length);
    point[CLASSIFICATION] = byte;
    point
}

/// A scale that passes, the ends of the range among them.
pub fn random_scale(rng: &mut Rng) -> f64 {
    match rng.below(10) {
        0 => 2f64.powi(-40),
        1 => 2f64.powi(20),
        2 => 2f64.powi(-(rng.from_to(0, 10) as i32)),
        3..6 => rng.pick(&[0.1, 0.01, 0.001, 0.25]),
        _ => random_significand(rng) * 2f64.powi(rng.from_to(0, 59) as i32 - 40),
    }
}

/// An offset that passes, the ends of the range and both zeros among them.
pub fn random_offset(rng: &mut Rng) -> f64 {
    match rng.below(12) {
        0 => 2f64.powi(40),
        1 => -2f64.powi(40),
        2 => -0.0,
        3 => 0.0,
        4 => f64::from_bits(1),
        5..8 => (rng.next() as i32).into(),
        _ => {
            let size = random_significand(rng) * 2f64.powi(rng.from_to(0, 79) as i32 - 40);
            if rng.chance(50) { size } else { -size }
        }
    }
}

/// A double from 1 to below 2.
fn random_significand(rng: &mut Rng) -> f64 {
    f64::from_bits(1f64.to_bits() | rng.next() >> 12)
}

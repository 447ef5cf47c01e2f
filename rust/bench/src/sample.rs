//! The files that are timed: a bare header and points of random bytes, of which the classes say which are kept.

use compare::rng::Rng;
use compare::spec::POINT_SIZES;

/// Keeps class 2.
pub const SHEET: [u8; 5] = [0x4B, 0x53, 1, 2, 2];

/// Where the points begin.
pub const HEADER: usize = 227;

/// The place of the classification byte in a point of any format.
const CLASS: usize = 15;

/// Which points are kept.
#[derive(Clone, Copy, Debug, PartialEq, Eq)]
pub enum Shape {
    /// Half of them at random.
    Random,
    All,
    None,
    /// A run of this many, then as many that are not kept.
    Runs(usize),
}

impl Shape {
    /// Whether the point of this index is kept; `coin` is a random bit.
    fn keeps(self, index: usize, coin: bool) -> bool {
        match self {
            Self::Random => coin,
            Self::All => true,
            Self::None => false,
            Self::Runs(length) => (index / length) & 1 == 0,
        }
    }
}

/// What a file holds.
#[derive(Clone, Copy, Debug, PartialEq, Eq)]
pub struct Sample {
    pub points: usize,
    pub shape: Shape,
    pub format: u8,
    /// Bytes of each point beyond the format's own.
    pub extra: usize,
}

impl Sample {
    pub const fn record_length(&self) -> usize {
        POINT_SIZES[self.format as usize] as usize + self.extra
    }

    /// The file, the same at each call.
    pub fn file(&self) -> Vec<u8> {
        let mut file = self.header();
        file.resize(HEADER + self.points * self.record_length(), 0);
        let mut rng = Rng::new(1);
        let records = file[HEADER..].chunks_exact_mut(self.record_length());
        for (index, record) in records.enumerate() {
            fill(record, &mut rng);
            let coin = rng.next() >> 63 == 0;
            record[CLASS] = if self.shape.keeps(index, coin) { 2 } else { 3 };
        }
        file
    }

    fn header(&self) -> Vec<u8> {
        let mut header = vec![0; HEADER];
        header[..4].copy_from_slice(b"LASF");
        header[24..26].copy_from_slice(&[1, 2]);
        header[94..96].copy_from_slice(&(HEADER as u16).to_le_bytes());
        header[96..100].copy_from_slice(&(HEADER as u32).to_le_bytes());
        header[104] = self.format;
        header[105..107].copy_from_slice(&(self.record_length() as u16).to_le_bytes());
        header[107..111].copy_from_slice(&(self.points as u32).to_le_bytes());
        for axis in 0..3 {
            header[131 + 8 * axis..139 + 8 * axis].copy_from_slice(&0.01f64.to_le_bytes());
        }
        header
    }
}

/// Eight bytes for each draw, since files have up to ten million points.
fn fill(record: &mut [u8], rng: &mut Rng) {
    for part in record.chunks_mut(8) {
        part.copy_from_slice(&rng.next().to_le_bytes()[..part.len()]);
    }
}

#[cfg(test)]
mod tests {
    use super::*;

    /// How many of 1,000 points are released.
    fn kept(shape: Shape, format: u8, extra: usize) -> u64 {
        let sample = Sample {
            points: 1_000,
            shape,
            format,
            extra,
        };
        let file = sample.file();
        assert_eq!(file.len(), HEADER + 1_000 * sample.record_length());
        let mut out = vec![0; file.len()];
        let released = las_plain::release(&file, &SHEET, &mut out);
        released.expect("the file is released").points
    }

    #[test]
    fn shapes_keep_what_they_say() {
        assert_eq!(kept(Shape::All, 0, 0), 1_000);
        assert_eq!(kept(Shape::None, 1, 0), 0);
        assert_eq!(kept(Shape::Runs(1), 2, 0), 500);
        assert_eq!(kept(Shape::Runs(400), 3, 36), 600);
        assert!((400..600).contains(&kept(Shape::Random, 1, 12)));
    }
}

//! Which releases are timed.

use std::fmt;

use crate::sample::{Sample, Shape};

/// The case that the others differ from in one thing each.
pub const COMMON: Sample = Sample {
    points: 1_000_000,
    shape: Shape::Random,
    format: 1,
    extra: 0,
};

/// The sizes by which growth is judged.
pub const SIZES: [usize; 4] = [10_000, 100_000, 1_000_000, 10_000_000];

/// How long the output is.
#[derive(Clone, Copy, Debug, PartialEq, Eq)]
pub enum Output {
    /// As long as the file.
    File,
    /// As long as the released file.
    Exact,
}

/// The files, the common one first.
pub fn samples() -> Vec<Sample> {
    let mut samples = vec![COMMON];
    let shapes = [Shape::All, Shape::None, Shape::Runs(1), Shape::Runs(1_000)];
    samples.extend(shapes.map(|shape| Sample { shape, ..COMMON }));
    samples.extend([0, 2, 3].map(|format| Sample { format, ..COMMON }));
    samples.extend([12, 36].map(|extra| Sample { extra, ..COMMON }));
    let others = SIZES.iter().filter(|&&points| points != COMMON.points);
    samples.extend(others.map(|&points| Sample { points, ..COMMON }));
    samples
}

/// How often each side runs: an odd number, and fewer of what takes longer.
pub fn rounds(points: usize) -> usize {
    (41_000_000 / points).clamp(15, 301) | 1
}

impl fmt::Display for Shape {
    fn fmt(&self, f: &mut fmt::Formatter) -> fmt::Result {
        match self {
            Self::Random => f.write_str("random half"),
            Self::All => f.write_str("all"),
            Self::None => f.write_str("none"),
            Self::Runs(1) => f.write_str("alternating"),
            Self::Runs(length) => write!(f, "runs of {length}"),
        }
    }
}

impl fmt::Display for Output {
    fn fmt(&self, f: &mut fmt::Formatter) -> fmt::Result {
        f.write_str(match self {
            Self::File => "file",
            Self::Exact => "exact",
        })
    }
}

//! Whether a file is exactly what a release under a sheet gives, with or without zeros behind it.
//!
//! The library decides: it releases the file, and the file is verified where that gives its own bytes back. All else
//! here explains where they differ, and decides nothing.

mod compare;
mod findings;
mod json;
mod parts;
mod records;
mod summary;
#[cfg(test)]
mod tests;
mod text;

pub use summary::Summary;

use crate::{layout, refusal};
use findings::Finding;
use korbishaf::{Error, Released, Sheet};
use parts::Difference;

/// What was found out about one file.
#[derive(Debug)]
pub struct Facts {
    /// Its name, as it may be shown.
    name: String,
    /// Its length, if it was read.
    length: Option<usize>,
    verdict: Verdict,
}

#[derive(Debug)]
enum Verdict {
    /// It is what a release gives, and so many zeros.
    Verified { released: Released, zeros: usize },
    /// It passes the checks and is not what a release of it gives.
    Differs {
        released: Released,
        /// The numbers of points and records that it states.
        points: Option<u64>,
        records: Option<u64>,
        difference: Difference,
        findings: Vec<Finding>,
    },
    /// It does not pass the checks.
    Refused { number: u64, words: String },
    /// It was not read.
    NotRead { words: String },
}

impl Facts {
    /// A file that was released: it is verified where it is the released file and zeros.
    pub fn released(
        name: &str,
        file: &[u8],
        (out, released): (&[u8], Released),
        sheet: &Sheet,
    ) -> Self {
        let verdict = match compare::first_difference(file, out) {
            None => Verdict::Verified {
                released,
                zeros: file.len().saturating_sub(out.len()),
            },
            Some(place) => Verdict::Differs {
                released,
                points: layout::POINT_COUNT.bits(file),
                records: layout::RECORD_COUNT.bits(file),
                difference: Difference::at(place, file, out),
                findings: findings::all(file, sheet),
            },
        };
        Facts {
            name: name.into(),
            length: Some(file.len()),
            verdict,
        }
    }

    /// A file that does not pass the checks.
    pub fn refused(name: &str, file: &[u8], refused: &Error) -> Self {
        Facts {
            name: name.into(),
            length: Some(file.len()),
            verdict: Verdict::Refused {
                number: refused.number(),
                words: refusal::words(file, refused),
            },
        }
    }

    /// A file that was not read, with what the failure says of it.
    pub fn not_read(name: &str, failure: &str) -> Self {
        let before = format!("{name}: ");
        let words = failure.strip_prefix(&before).unwrap_or(failure).to_string();
        Facts {
            name: name.into(),
            length: None,
            verdict: Verdict::NotRead { words },
        }
    }

    /// Whether the file was read.
    pub fn was_read(&self) -> bool {
        !matches!(self.verdict, Verdict::NotRead { .. })
    }

    /// Whether the file is what a release gives.
    pub fn is_verified(&self) -> bool {
        matches!(self.verdict, Verdict::Verified { .. })
    }
}

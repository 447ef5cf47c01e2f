//! The facts as lines.

use super::{Facts, Verdict};
use crate::shown::counted;

impl Facts {
    /// The file's line, and one below it for each finding.
    pub fn lines(&self) -> String {
        let name = &self.name;
        match &self.verdict {
            Verdict::Verified { released, zeros } => {
                let mut all = vec![
                    counted(released.length, "byte"),
                    counted(released.points, "point"),
                    counted(released.records, "record"),
                ];
                if *zeros > 0 {
                    all.push(format!("{} behind it", counted(*zeros, "zero")));
                }
                format!("{name}: verified ({})\n", all.join(", "))
            }
            Verdict::Differs {
                difference,
                findings,
                ..
            } => {
                let mut lines = format!(
                    "{name}: not verified: byte {}, {}: {}, a release has {}\n",
                    difference.place, difference.part, difference.found, difference.wanted
                );
                for finding in findings {
                    lines.push_str(&format!("  byte {}: {}\n", finding.place, finding.words()));
                }
                lines
            }
            Verdict::Refused { number, words } => {
                format!("{name}: not verified: refused {number}: {words}\n")
            }
            Verdict::NotRead { words } => format!("{name}: not read: {words}\n"),
        }
    }
}

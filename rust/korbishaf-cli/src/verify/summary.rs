//! How many files were verified.

use super::Facts;
use crate::failure::Failure;
use crate::json::Json;
use crate::shown::counted;

/// The numbers of files by what came of them.
#[derive(Debug, Default)]
pub struct Summary {
    verified: usize,
    not_verified: usize,
    not_read: usize,
}

impl Summary {
    /// Counts a file.
    pub fn add(&mut self, facts: &Facts) {
        *match (facts.was_read(), facts.is_verified()) {
            (false, _) => &mut self.not_read,
            (true, false) => &mut self.not_verified,
            (true, true) => &mut self.verified,
        } += 1;
    }

    /// The last line.
    pub fn line(&self) -> String {
        let Summary {
            verified,
            not_verified,
            not_read,
        } = self;
        let files = counted(verified + not_verified + not_read, "file");
        format!("{files}: {verified} verified, {not_verified} not verified, {not_read} not read\n")
    }

    /// The same as members of an object.
    pub fn members(&self) -> [(&'static str, Json); 3] {
        [
            ("verified", Json::count(self.verified)),
            ("not_verified", Json::count(self.not_verified)),
            ("not_read", Json::count(self.not_read)),
        ]
    }

    /// What the exit status tells. All words are said already.
    pub fn result(&self) -> Result<(), Failure> {
        match self {
            Summary { not_read: 1.., .. } => Err(Failure::Io(String::new())),
            Summary {
                not_verified: 1.., ..
            } => Err(Failure::Refused(String::new())),
            _ => Ok(()),
        }
    }
}

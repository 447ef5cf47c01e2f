//! The facts as JSON.

use super::parts::Difference;
use super::{Facts, Verdict};
use crate::json::Json;
use korbishaf::Released;

impl Facts {
    /// An object with the same members for every file; what is not known is null.
    pub fn json(&self) -> Json {
        let verdict = &self.verdict;
        let zeros = match verdict {
            Verdict::Verified { zeros, .. } => Json::count(*zeros),
            _ => Json::Null,
        };
        let (difference, findings) = match verdict {
            Verdict::Differs {
                difference,
                findings,
                ..
            } => (
                difference.json(),
                Json::list(findings, |finding| finding.json()),
            ),
            _ => (Json::Null, Json::List(Vec::new())),
        };
        let [points, records] = verdict.counts();
        Json::Object(vec![
            ("name", Json::text(&self.name)),
            ("verified", Json::Bool(self.is_verified())),
            ("length", self.length.map_or(Json::Null, Json::count)),
            ("zeros_behind", zeros),
            ("points", points.map_or(Json::Null, Json::number)),
            ("records", records.map_or(Json::Null, Json::number)),
            ("release", verdict.release()),
            ("refused", verdict.refusal()),
            ("not_read", verdict.reason()),
            ("first_difference", difference),
            ("findings", findings),
        ])
    }
}

impl Verdict {
    /// The numbers of points and records that the file states.
    fn counts(&self) -> [Option<u64>; 2] {
        match self {
            Verdict::Verified { released, .. } => [Some(released.points), Some(released.records)],
            Verdict::Differs {
                points, records, ..
            } => [*points, *records],
            _ => [None, None],
        }
    }

    /// What a release of the file has.
    fn release(&self) -> Json {
        match self {
            Verdict::Verified { released, .. } | Verdict::Differs { released, .. } => {
                let Released {
                    length,
                    points,
                    records,
                } = *released;
                Json::Object(vec![
                    ("length", Json::count(length)),
                    ("points", Json::number(points)),
                    ("records", Json::number(records)),
                ])
            }
            _ => Json::Null,
        }
    }

    fn refusal(&self) -> Json {
        match self {
            Verdict::Refused { number, words } => Json::Object(vec![
                ("number", Json::number(*number)),
                ("words", Json::text(words)),
            ]),
            _ => Json::Null,
        }
    }

    fn reason(&self) -> Json {
        match self {
            Verdict::NotRead { words } => Json::text(words),
            _ => Json::Null,
        }
    }
}

impl Difference {
    fn json(&self) -> Json {
        Json::Object(vec![
            ("place", Json::count(self.place)),
            ("part", Json::text(&self.part)),
            ("found", self.found.json()),
            ("wanted", self.wanted.json()),
        ])
    }
}

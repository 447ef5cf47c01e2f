//! Findings as JSON.

use super::{Finding, Points, What};
use crate::json::Json;
use crate::shown;
use crate::verify::records::Name;

/// A member of an object.
type Member = (&'static str, Json);

impl Finding {
    /// The finding as an object: four members that all have, and those of its kind.
    pub fn json(&self) -> Json {
        let mut members = vec![
            ("what", Json::text(self.what.name())),
            ("place", Json::count(self.place)),
            ("length", Json::count(self.length)),
            ("words", Json::text(self.words())),
        ];
        members.extend(self.what.members());
        Json::Object(members)
    }
}

impl What {
    /// The name of its kind.
    fn name(&self) -> &'static str {
        match self {
            What::TextTail { .. } => "text_tail",
            What::WrongValue { .. } => "wrong_value",
            What::ExtraHeader { .. } => "extra_header_bytes",
            What::RecordNotKept { .. } => "record_not_kept",
            What::Reserved { .. } => "reserved_bytes",
            What::MoreInRecords { .. } => "more_in_records",
            What::Gap { .. } => "gap",
            What::PointsNotKept { .. } => "points_not_kept",
            What::PointsWithheld { .. } => "points_withheld",
            What::PointsOutside { .. } => "points_outside_boxes",
            What::BehindPoints { .. } => "behind_points",
        }
    }

    /// The members that only its kind has.
    fn members(&self) -> Vec<Member> {
        match self {
            What::TextTail {
                field,
                record,
                text,
            } => of_tail(field, text, record.as_ref()),
            What::WrongValue {
                field,
                stated,
                actual,
            } => vec![
                ("part", Json::text(*field)),
                ("stated", stated.json()),
                ("actual", actual.json()),
            ],
            What::RecordNotKept { record } => of_record(record).into(),
            What::Reserved { record, bytes } => {
                let bytes = ("bytes", bytes.json());
                of_record(record).into_iter().chain([bytes]).collect()
            }
            What::MoreInRecords { count } => vec![("count", Json::count(*count))],
            What::ExtraHeader { all_zero } | What::Gap { all_zero, .. } => {
                vec![("all_zero", Json::Bool(*all_zero))]
            }
            What::PointsNotKept { class, points } => {
                let class = ("class", Json::number(*class));
                [class].into_iter().chain(of_points(points)).collect()
            }
            What::PointsWithheld { points } | What::PointsOutside { points } => {
                of_points(points).into()
            }
            What::BehindPoints { whole, .. } => vec![("whole_points", Json::count(*whole))],
        }
    }
}

fn of_points(points: &Points) -> [Member; 2] {
    [
        ("count", Json::count(points.count)),
        ("first_index", Json::count(points.first)),
    ]
}

fn of_tail(field: &str, text: &[u8], record: Option<&Name>) -> Vec<Member> {
    let part = ("part", Json::text(field));
    let text = ("text", Json::text(shown::text(text)));
    let record = record.into_iter().flat_map(of_record);
    [part, text].into_iter().chain(record).collect()
}

fn of_record(record: &Name) -> [Member; 3] {
    [
        ("record", Json::count(record.number)),
        ("user_id", Json::text(shown::text(&record.user_id))),
        ("record_id", Json::number(record.record_id)),
    ]
}

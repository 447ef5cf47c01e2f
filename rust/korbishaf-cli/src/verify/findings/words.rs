//! Findings in words.

use super::{Finding, Points, What};
use crate::facts::class;
use crate::shown::{self, counted};
use crate::verify::records::Name;

impl Finding {
    /// What it is, in words.
    pub fn words(&self) -> String {
        let bytes = counted(self.length, "byte");
        match &self.what {
            What::TextTail {
                field,
                record,
                text,
            } => {
                let (of, text) = (of(record.as_ref()), shown::text(text));
                format!("{bytes} behind the end of the {field}{of}: \"{text}\"")
            }
            What::WrongValue {
                field,
                stated,
                actual,
            } => format!("the {field} is wrong: {stated} stated, {actual} actual"),
            What::ExtraHeader { all_zero } => {
                let extra = counted(self.length, "extra header byte");
                format!("{extra}{}", zero(*all_zero))
            }
            What::RecordNotKept { record } => {
                format!("{record}, {bytes}: the sheet does not keep it")
            }
            What::Reserved { record, bytes } => format!("the reserved bytes of {record}: {bytes}"),
            What::MoreInRecords { count } => {
                let more = counted(*count, "more finding");
                format!("{more} in the records from here on")
            }
            What::Gap { behind, all_zero } => {
                let zero = zero(*all_zero);
                format!("{bytes} between the {behind} and the points{zero}")
            }
            What::PointsNotKept { class, points } => not_kept(&of_class(*class), points, &bytes),
            What::PointsWithheld { points } => withheld(points, &bytes),
            What::PointsOutside { points } => not_kept("outside all boxes", points, &bytes),
            What::BehindPoints { whole, over } => behind(*whole, *over, &bytes),
        }
    }
}

/// Points that the sheet does not keep, and what they have in common.
fn not_kept(in_common: &str, points: &Points, bytes: &str) -> String {
    let counted = counted(points.count, "point");
    let them = match points.count {
        1 => "it",
        _ => "them",
    };
    let which = which(points);
    format!("{counted} {in_common}, {bytes}: the sheet does not keep {them}; {which}")
}

fn of_class(class: u8) -> String {
    format!("of class {class} ({})", class::name(class))
}

fn withheld(points: &Points, bytes: &str) -> String {
    let counted = counted(points.count, "withheld point");
    let they_never_go = match points.count {
        1 => "it never goes",
        _ => "they never go",
    };
    let which = which(points);
    format!("{counted}, {bytes}: {they_never_go} out; {which}")
}

/// Which points of the file they are.
fn which(Points { count, first }: &Points) -> String {
    match count {
        1 => format!("its index is {first}"),
        _ => format!("the first has index {first}"),
    }
}

fn behind(whole: usize, over: usize, bytes: &str) -> String {
    let (records, left) = (counted(whole, "whole point record"), counted(over, "byte"));
    let much = match (whole, over) {
        (0, _) => "less than a whole point record".into(),
        (_, 0) => format!("as many as {records}"),
        _ => format!("as many as {records} and {left}"),
    };
    format!("{bytes} behind the last counted point, not all zero: {much}")
}

fn of(record: Option<&Name>) -> String {
    record.map_or(String::new(), |record| format!(" of {record}"))
}

fn zero(all_zero: bool) -> &'static str {
    if all_zero { ", all zero" } else { "" }
}

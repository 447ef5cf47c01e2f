//! Records that stay, though a line of the sheet nearly has their name.

use super::super::name::{self, Name};
use super::super::plan::Plan;
use super::super::warning::Warning;
use super::sheet_lines;
use crate::facts::records;
use crate::json::Json;
use crate::shown;
use korbishaf::{Line, Record};
use std::collections::BTreeMap;

/// How many names have a warning of their own: a file may have any number of spellings.
const SHOWN: usize = 32;

/// The warnings, in the order of the first records of each name.
pub fn of(plan: &Plan<'_>) -> Vec<Warning> {
    let (found, more) = find(plan);
    let mut warnings: Vec<_> = found.iter().map(|near| warning(plan, near)).collect();
    if more > 0 {
        warnings.push(more_of_them(more));
    }
    warnings
}

/// Records of one name that stay, and the first line that nearly has it.
struct NearName<'a> {
    index: usize,
    line: Line,
    name: Name,
    /// The first of the records, and its number in the file.
    record: Record<'a>,
    first: usize,
    count: u64,
}

/// The first near names, and the number of records that have others.
fn find<'a>(plan: &Plan<'a>) -> (Vec<NearName<'a>>, u64) {
    let mut lines = BTreeMap::new();
    for (index, line) in plan.sheet.lines().enumerate() {
        if let Some(name) = name::of_line(&line) {
            lines.entry(name::plain(name)).or_insert((index, line));
        }
    }
    let mut found: Vec<NearName<'a>> = Vec::new();
    let mut more = 0;
    for (first, record) in plan.records(false) {
        let name = name::of(&record);
        let Some(&(index, line)) = lines.get(&name::plain(name)) else {
            continue;
        };
        match found.iter().position(|near| near.name == name) {
            Some(place) => found[place].count += 1,
            None if found.len() == SHOWN => more += 1,
            None => found.push(NearName {
                index,
                line,
                name,
                record,
                first,
                count: 1,
            }),
        }
    }
    (found, more)
}

fn warning(plan: &Plan<'_>, near: &NearName<'_>) -> Warning {
    let (first, name) = (near.first, records::name(&near.record));
    let stay = match near.count {
        1 => format!("record {first}, {name}, stays: its name differs"),
        count => format!(
            "record {first}, {name}, and {} more of that name stay: it differs",
            count - 1
        ),
    };
    let (place, line) = (plan.keep_sheet.place(near.index), &near.line);
    let words = format!("{stay} only in case or blanks from {place}: {line}");
    let mut about = sheet_lines::about(plan, near.index, line);
    about.extend([
        ("first_record", Json::count(first)),
        ("user_id", Json::text(shown::text(near.record.user_id))),
        ("record_id", Json::number(near.record.record_id)),
        ("records", Json::number(near.count)),
    ]);
    Warning::new("record_nearly_named", words, about)
}

fn more_of_them(records: u64) -> Warning {
    let words = match records {
        1 => "1 more record stays whose name nearly matches a line of the sheet".into(),
        _ => format!("{records} more records stay whose names nearly match a line of the sheet"),
    };
    let about = vec![("records", Json::number(records))];
    Warning::new("more_records_nearly_named", words, about)
}

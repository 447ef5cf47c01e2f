//! What `report` prints for a person.

use super::plan::Plan;
use super::warning::Warning;
use crate::facts::group::Outcome;
use crate::facts::header::{self, Published};
use crate::facts::text;
use crate::shown::counted;
use crate::table::Table;
use std::fmt::Display;
use std::io::{self, Write};

/// How many names of a point's fields stand in a line.
const NAMES_IN_LINE: usize = 4;

/// What stands above the points that stay, for each reason.
const STAYING: [(Outcome, &str); 3] = [
    (Outcome::ClassNotKept, "points by class"),
    (
        Outcome::Withheld,
        "withheld points by class, which stay whatever the sheet says",
    ),
    (
        Outcome::OutsideBoxes,
        "points outside all boxes by class, which stay though their class is kept",
    ),
];

/// Writes the plan in sections, the warnings last.
pub fn write(
    out: &mut dyn Write,
    name: &str,
    plan: &Plan<'_>,
    warnings: &[Warning],
) -> io::Result<()> {
    let (sheet, length) = (&plan.keep_sheet.name, counted(plan.length, "byte"));
    writeln!(out, "{name} under {sheet}: nothing is written")?;
    writeln!(
        out,
        "\nGoes out: a file of {length} with {}",
        share(plan, true)
    )?;
    write_classes(out, plan, Outcome::GoOut, "points by class")?;
    let flags = text::flags(plan.set_flags());
    write!(out, "{}", flags.under("points by flag"))?;
    write_records(out, plan, true)?;
    writeln!(out, "\nStays: {}", share(plan, false))?;
    for (outcome, title) in STAYING {
        write_classes(out, plan, outcome, title)?;
    }
    write_records(out, plan, false)?;
    write!(out, "{}", text::parts(&plan.facts))?;
    write!(
        out,
        "\nPublished whatever the sheet says\n{}",
        published(plan)
    )?;
    writeln!(out, "\nWarnings")?;
    write_warnings(out, warnings)
}

/// How many of the points and records go out, or stay.
fn share(plan: &Plan<'_>, going_out: bool) -> String {
    let header = &plan.facts.header;
    let (points, records) = (plan.points(going_out), plan.records(going_out).count());
    format!(
        "{points} of {}, {records} of {}",
        counted(header.point_count, "point"),
        counted(header.record_count, "record")
    )
}

/// Writes the points with an outcome by class, below a title.
fn write_classes(
    out: &mut dyn Write,
    plan: &Plan<'_>,
    outcome: Outcome,
    title: &'static str,
) -> io::Result<()> {
    let classes = text::classes(plan.classes(outcome));
    write!(out, "{}", classes.under(title))
}

/// Writes the records that go out, or that stay.
fn write_records(out: &mut dyn Write, plan: &Plan<'_>, going_out: bool) -> io::Result<()> {
    let records = text::records(plan.records(going_out));
    write!(out, "{}", records.under("records"))
}

/// The header's fields that a release carries, and what it has of each point and record that goes out.
fn published(plan: &Plan<'_>) -> impl Display {
    let mut rows: Vec<[String; 2]> = Vec::new();
    for field in header::fields(&plan.facts.header) {
        if field.published == Published::Always {
            rows.push([field.name.into(), field.value.text()]);
        }
    }
    let names = header::point_fields(&plan.facts.header);
    let mut lines = names.chunks(NAMES_IN_LINE).peekable();
    let mut title = "of a point that goes out";
    while let Some(line) = lines.next() {
        let comma = if lines.peek().is_some() { "," } else { "" };
        rows.push([title.into(), format!("{}{comma}", line.join(", "))]);
        title = "";
    }
    let of_a_record = header::RECORD_FIELDS.join(", ");
    rows.push(["of a record that goes out".into(), of_a_record]);
    Table::new(&[], rows.into_iter())
}

fn write_warnings(out: &mut dyn Write, warnings: &[Warning]) -> io::Result<()> {
    if warnings.is_empty() {
        return writeln!(out, "  none");
    }
    let mut warnings = warnings.iter();
    warnings.try_for_each(|warning| writeln!(out, "  - {}", warning.words))
}

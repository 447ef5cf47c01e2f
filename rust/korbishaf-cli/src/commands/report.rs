//! `korbishaf report`

mod json;
mod name;
pub(super) mod plan;
mod text;
mod warning;
mod warnings;

use crate::arguments::Arguments;
use crate::command::{Command, Flag};
use crate::failure::Failure;
use crate::input::Opened;
use crate::keep_sheet::KeepSheet;
use crate::progress::Progress;
use crate::{console, refusal, room};
use plan::Plan;
use std::io::{self, Write};

pub const COMMAND: Command = Command {
    name: "report",
    operands: "IN SHEET",
    count: (2, 2),
    flags: &[Flag::Quiet, Flag::Json],
    summary: "say what SHEET would keep of the scan IN, and warn; write nothing",
    details: "\
Says what a release of the scan IN under the keep sheet SHEET would have, and writes nothing: what goes
out, what stays, what is published whatever the sheet says, and warnings. The status is 0 with warnings
too. What a release would refuse is refused, with the reason in words on standard error.

A line for class 2 keeps the synthetic points and the key points of class 2 too; 'points by flag' says
how many points with these flags go out. Points that stay are listed by their reason, each once:
withheld ones, which stay whatever the sheet says; then those whose class the sheet does not keep; then,
where the sheet has boxes, those of kept classes that lie outside all of them.

A release has every byte of a point that goes out, and of a record all but its reserved field. Of a
text field, what stands from its first zero byte on stays, and so do the spaces before that. Counts and
bounds are worked out anew.

It warns of

  lines of the sheet that match nothing in IN, or only points that stay all the same: withheld ones, of
    a class those outside all boxes, in a box those of classes that are not kept
  boxes on a sheet that has no line for classes, and so keeps no point
  records that stay, though but for case or blanks a line of the sheet has their name
  a GeoKey directory that goes out without the records that its keys point to
  withheld points that the sheet would keep otherwise
  all or none of the points going out, withheld ones not counted
  points by return and bounds that IN states wrongly

A line of a sheet that is a text is named by its file and its place there, as in sheet.txt:5; the lines
of a sheet of bytes are counted from 1. Of the names that a line nearly has the first 32 are there, and
how many more records have such names.

Texts of files are shown in ASCII, here and in JSON: a backslash is doubled, and a byte that is not
printable stands as \\xNN. In JSON each warning has a kind, its words, and what they speak of.
",
    run,
};

fn run(arguments: &Arguments) -> Result<(), Failure> {
    let [file, sheet] = arguments.operands.as_slice() else {
        return Err(COMMAND.misused("expected two words"));
    };
    COMMAND.reads_standard_input_once(&arguments.operands)?;
    let (file, sheet) = (Opened::new(file)?, Opened::new(sheet)?);
    let name = file.name.clone();
    let progress = Progress::new(arguments.quiet);
    let sheet = KeepSheet::read(sheet)?;
    let file = file.read(&progress)?;
    room::is_left_beside(&name)?;
    let plan = Plan::of(&file, &sheet, &progress);
    drop(progress);
    let plan =
        plan.map_err(|refused| Failure::Refused(refusal::of(&name, &file, &sheet, &refused)))?;
    console::stream(|out| write(out, &name, &plan, arguments.json))
}

/// Writes the report on a file of that name.
pub(super) fn write(
    out: &mut dyn Write,
    name: &str,
    plan: &Plan<'_>,
    as_json: bool,
) -> io::Result<()> {
    let warnings = warnings::of(plan);
    if as_json {
        writeln!(out, "{}", json::of(name, plan, warnings))
    } else {
        text::write(out, name, plan, &warnings)
    }
}

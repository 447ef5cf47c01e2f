//! `korbishaf show`

mod json;
mod text;

use crate::arguments::Arguments;
use crate::command::{Command, Flag};
use crate::facts::Facts;
use crate::facts::boxes::Boxes;
use crate::failure::Failure;
use crate::input::Opened;
use crate::progress::Progress;
use crate::{console, refusal, room};
use std::io::{self, Write};

pub const COMMAND: Command = Command {
    name: "show",
    operands: "FILE",
    count: (1, 1),
    flags: &[Flag::Quiet, Flag::Json],
    summary: "show what is in a scan: header, records, points by class, GeoKeys",
    details: "\
Shows what is in the scan FILE: the header, bytes beside records and points, the records, the points by
class, by flag and by return number, the bounds, and the keys of the GeoKey directory. A file that does
not pass is refused, with the reason in words on standard error.

A class is the lower five bits of the classification byte, 0 to 31. The three bits above are flags:
synthetic, key-point and withheld. Each is counted by itself, so that a point with two flags counts at
both. A sheet for class 2 takes its synthetic points and its key points too; withheld points never go
out.

The header states points by return and bounds, which may be wrong: both are there as stated and as they
actually are, and 'differs' marks what is not the same. The actual bounds are the coordinates of the
largest and the smallest stored values, which stand beside them; without points they are 0. A coordinate
is stored value times scale plus offset; a box on a keep sheet is written in stored values.

GeoKeys stand in the order of the directory: shorts and doubles as numbers, texts in quotes as they are,
with a '|' at the end if there is one, and cut behind 255 bytes. Where a key can't be read, the number
and the words of the refusal stand in place of the value.

Texts of the file are shown in ASCII, here and in JSON: a backslash is doubled, and a byte that is not
printable stands as \\xNN. In JSON a double that is no number is a string: \"NaN\", \"inf\" or \"-inf\".
",
    run,
};

fn run(arguments: &Arguments) -> Result<(), Failure> {
    let [file] = arguments.operands.as_slice() else {
        return Err(COMMAND.misused("expected one word"));
    };
    let opened = Opened::new(file)?;
    let name = opened.name.clone();
    let progress = Progress::new(arguments.quiet);
    let file = opened.read(&progress)?;
    room::is_left_beside(&name)?;
    let facts = Facts::of(&file, &Boxes::none(), &progress);
    drop(progress);
    let facts =
        facts.map_err(|refused| Failure::Refused(refusal::of_file(&name, &file, &refused)))?;
    console::stream(|out| write(out, &name, &facts, arguments.json))
}

/// Writes what is in a file of that name.
pub(super) fn write(
    out: &mut dyn Write,
    name: &str,
    facts: &Facts<'_>,
    as_json: bool,
) -> io::Result<()> {
    if as_json {
        writeln!(out, "{}", json::of(name, facts))
    } else {
        text::write(out, name, facts)
    }
}

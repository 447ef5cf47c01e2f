//! `korbishaf list`

mod json;
pub(super) mod lines;
pub(super) mod parts;
mod text;

use crate::arguments::Arguments;
use crate::command::{Command, Flag};
use crate::failure::Failure;
use crate::input::Opened;
use crate::keep_sheet::KeepSheet;
use crate::progress::Progress;
use crate::releasing::Stopped;
use crate::{console, refusal, room};
use parts::Cutting;
use std::io::{self, Write};

pub const COMMAND: Command = Command {
    name: "list",
    operands: "IN SHEET",
    count: (2, 2),
    flags: &[Flag::Quiet, Flag::Json, Flag::Runs],
    summary: "list where in the scan IN the parts stand that SHEET keeps; write nothing",
    details: "\
Lists the parts of the scan IN that a release under the keep sheet SHEET takes, and writes nothing: the
payload of each record that goes out, and then each point, in the order of the file. What a release
would refuse is refused, with the reason in words on standard error.

Each part has a line with its place, which is the number of bytes before it in IN, its length in bytes
and what it is. The last line sums up. This is an example of all that is printed:

  scan.las under sheet.txt: the parts that go out; not to be handed on
    place  length
      362      24  record 2, \"yard\" 7
      520      28  point 3
      632      28  point 7
      660      28  point 8
      772      28  point 12
  5 parts: 1 record, 4 points, 136 bytes

The list is for the seller, who has the scan, and not to be handed on: it shows places in IN, and so
where things stand that do not go out, and how many. A buyer gets the released file, which shows none of
that.

Records and points are counted from 1 as they stand in IN, those that stay among them. A payload may have
no bytes, and its place is then that of what follows. Header fields and the names and descriptions of
records go out too and are not in the list: 'korbishaf report' has them.

With --runs there is one line for points that go out and stand side by side, as in 'points 7 to 8'. A
scan of many points that go out may then have a short list. The last line counts the points as before.

Texts of files are shown in ASCII, here and in JSON: a backslash is doubled, and a byte that is not
printable stands as \\xNN. In JSON each of the 'lines' has a kind, which is 'record' or 'points', and of
points the number of the first and how many there are.
",
    run,
};

fn run(arguments: &Arguments) -> Result<(), Failure> {
    let [file, sheet] = arguments.operands.as_slice() else {
        return Err(COMMAND.misused("expected two words"));
    };
    COMMAND.reads_standard_input_once(&arguments.operands)?;
    let (file, sheet) = (Opened::new(file)?, Opened::new(sheet)?);
    let name = file.name.clone();
    let progress = Progress::new(arguments.quiet);
    let sheet = KeepSheet::read(sheet)?;
    let file = file.read(&progress)?;
    let refused = |refused| Failure::Refused(refusal::of(&name, &file, &sheet, &refused));
    let lines = lines::of(&file, &sheet.bytes, &progress).map_err(|stopped| match stopped {
        Stopped::Refused(number) => refused(number),
        Stopped::Failed(failure) => failure,
    })?;
    room::is_left_beside(&name)?;
    drop(progress);
    let cutting = Cutting::of(&file, &lines, arguments.runs).map_err(refused)?;
    console::stream(|out| write(out, [&name, &sheet.name], &cutting, arguments.json))
}

/// Writes the list of a file under a sheet, by the names of both.
pub(super) fn write(
    out: &mut dyn Write,
    names: [&str; 2],
    cutting: &Cutting<'_>,
    as_json: bool,
) -> io::Result<()> {
    if as_json {
        writeln!(out, "{}", json::of(names, cutting))
    } else {
        text::write(out, names, cutting)
    }
}

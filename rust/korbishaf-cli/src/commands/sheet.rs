//! `korbishaf sheet`

mod class_line;

use crate::arguments::Arguments;
use crate::command::{Command, Flag};
use crate::console;
use crate::failure::Failure;
use crate::input::{self, Opened};
use crate::keep_sheet::KeepSheet;
use crate::progress::Progress;
use crate::whole_file::Target;
use korbishaf::class_number;
use std::ffi::OsStr;
use std::os::unix::ffi::OsStrExt;

pub const COMMAND: Command = Command {
    name: "sheet",
    operands: "SHEET",
    count: (1, 1),
    flags: &[Flag::Force, Flag::Output, Flag::Class],
    summary: "print a keep sheet, turn it into bytes, or say which line keeps a class",
    details: "\
Prints a keep sheet as a text, a line for each of its own; with -o it writes the sheet's bytes to FILE
and prints nothing. SHEET is a text or bytes: what begins with the bytes 4B 53 (\"KS\") or is empty is
bytes.

A text has lines like these; what follows a '#' is a comment:

  class 2                        points of class 2
  class 3-5                      points of the classes 3 to 5
  class ground                   by a class's name in LAS 1.2
  record LASF_Projection 34735   records with that user ID and record ID
  record \"my survey\" 7           a user ID with a blank stands in double quotes
  box X -1500..2000 Y 0..4000    a box in stored values: where there are boxes, only points in one go out

A class is the lower five bits of a point's classification byte, without the flags above them: 'class 2'
keeps the synthetic points and the key points of class 2 too (the bytes 34, 66 and 98). Withheld points
never go out. A line may have classes up to 255; in point formats 0 to 3 no point has one above 31.

A point goes out if a line has its class and, where the sheet has boxes, it lies in one of them, edges
included. A box alone keeps no point: for all that is in it, add the line 'class 0-31'. A box has one to
three axes, X, Y and Z, each with its low and its high value; an axis that is left out is not bounded.
The values are those that the file stores, whole numbers from -2147483648 to 2147483647, and no
coordinates: a coordinate is stored value times scale plus offset. 'korbishaf show' has the scales, the
offsets, and the stored values beside the bounds. Records are kept whether there are boxes or not.

Spaces at the end of a user ID do not count, neither here nor in a scan: 'record yard 7' also keeps the
records of a maker who fills user IDs with spaces. A sheet has at most 64 lines; an empty one keeps
nothing.

With --class it says which line of the sheet keeps a class, and prints nothing else:

  class 6 (building): kept by sheet.txt:2: class 6 (2 of 3 lines looked at)
  class 5 (high-vegetation): not kept (3 of 3 lines looked at)

The first line that holds the class answers, and those behind it are not looked at; a sheet with a fault
in any line is refused all the same. CLASS is a number from 0 to 255, without flags in it, or a name.
Either answer has the exit status 0. Lines of boxes are counted, and hold no class: where a class is
kept, its withheld points stay all the same, and so do its points outside all boxes of the sheet.
",
    run,
};

fn run(arguments: &Arguments) -> Result<(), Failure> {
    match &arguments.class {
        Some(class) => say_line_of(class, arguments),
        None => hand_over(arguments),
    }
}

/// Says which line of the sheet keeps a class.
fn say_line_of(class: &OsStr, arguments: &Arguments) -> Result<(), Failure> {
    if arguments.force || arguments.output.is_some() {
        return Err(COMMAND.misused("'--class' writes no file, and takes no '-o' and no '--force'"));
    }
    let class =
        class_number(class.as_bytes()).map_err(|mistake| COMMAND.misused(mistake.words()))?;
    let sheet = KeepSheet::read(Opened::new(&arguments.operands[0])?)?;
    let words = class_line::words(&sheet, &sheet.checked()?, class);
    console::print(format!("{words}\n").as_bytes())
}

/// Prints the sheet as a text, or writes its bytes.
fn hand_over(arguments: &Arguments) -> Result<(), Failure> {
    let opened = Opened::new(&arguments.operands[0])?;
    let to_file = arguments
        .output
        .as_ref()
        .filter(|output| !input::is_standard(output));
    let target = to_file
        .map(|output| Target::new(output, arguments.force))
        .transpose()?;
    if let Some(target) = &target {
        target.check(&[&opened])?;
    }
    let sheet = KeepSheet::read(opened)?.checked()?;
    match (target, &arguments.output) {
        (Some(target), _) => target.write(sheet.as_bytes(), &Progress::none()),
        (None, Some(_)) => console::print(sheet.as_bytes()),
        (None, None) => console::print(sheet.to_text().as_bytes()),
    }
}

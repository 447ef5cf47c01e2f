//! `korbishaf release`

use crate::arguments::Arguments;
use crate::command::{Command, Flag};
use crate::failure::Failure;
use crate::input::Opened;
use crate::keep_sheet::KeepSheet;
use crate::output::Output;
use crate::progress::Progress;
use crate::releasing::{Stopped, release};
use crate::{console, refusal};
use korbishaf::Released;

pub const COMMAND: Command = Command {
    name: "release",
    operands: "IN SHEET OUT",
    count: (3, 3),
    flags: &[Flag::Force, Flag::Quiet],
    summary: "write what SHEET keeps of the scan IN to OUT",
    details: "\
Writes what the keep sheet SHEET keeps of the scan IN to the file OUT, and prints 'released LENGTH points
NUMBER records NUMBER', or 'refused NUMBER' and the reason in words on standard error. Withheld points
never go out, whatever SHEET says.

OUT is whole or not there: it is written under a name of its own in the same folder, flushed, and then
renamed. What is there already is replaced only with --force, and never if it is IN or SHEET; a link
stays, and what it leads to is replaced. INT, TERM and HUP leave nothing behind; KILL or a power cut
may leave a file named .korbishaf-*.part, which can be removed. Where OUT is '-', the released file goes
to standard output, and the line to standard error unless --quiet is there.

On a terminal a bar shows how far reading, releasing and writing are.
",
    run,
};

fn run(arguments: &Arguments) -> Result<(), Failure> {
    let [file, sheet, out] = arguments.operands.as_slice() else {
        return Err(COMMAND.misused("expected three words"));
    };
    COMMAND.reads_standard_input_once(&arguments.operands[..2])?;
    console::is_open()?;
    let (file, sheet) = (Opened::new(file)?, Opened::new(sheet)?);
    let output = Output::new(out, arguments)?;
    if let Some(target) = &output.target {
        target.check(&[&file, &sheet])?;
    }
    let progress = Progress::new(arguments.quiet);
    let sheet = KeepSheet::read(sheet)?;
    let name = file.name.clone();
    let file = file.read(&progress)?;
    match release(&file, &sheet.bytes, &progress) {
        Ok((out, released)) => output.hand_over(&out, &line(&released), progress),
        Err(Stopped::Failed(failure)) => Err(failure),
        Err(Stopped::Refused(refused)) => {
            drop(progress);
            let words = refusal::of(&name, &file, &sheet, &refused);
            refuse(&words, refused.number(), output.target.is_some())
        }
    }
}

/// What is said of a release.
fn line(released: &Released) -> String {
    let Released {
        length,
        points,
        records,
    } = released;
    format!("released {length} points {points} records {records}")
}

/// Says on both outputs that the release was refused. Where standard output was to have the file, it gets nothing.
fn refuse(words: &str, number: u64, has_line: bool) -> Result<(), Failure> {
    if !has_line {
        return Err(Failure::Refused(words.into()));
    }
    console::say(words);
    console::print(format!("refused {number}\n").as_bytes())?;
    Err(Failure::Refused(String::new()))
}

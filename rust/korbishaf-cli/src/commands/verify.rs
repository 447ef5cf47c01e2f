//! `korbishaf verify`

use crate::arguments::Arguments;
use crate::command::{Command, Flag};
use crate::console;
use crate::failure::Failure;
use crate::input::{self, Opened};
use crate::json::Json;
use crate::keep_sheet::KeepSheet;
use crate::progress::Progress;
use crate::releasing::{Stopped, release};
use crate::verify::{Facts, Summary};
use korbishaf::Sheet;
use std::ffi::OsStr;

pub const COMMAND: Command = Command {
    name: "verify",
    operands: "FILE... SHEET",
    count: (2, usize::MAX),
    flags: &[Flag::Quiet, Flag::Json],
    summary: "say whether each FILE is exactly what a release under SHEET gives",
    details: "\
Says of each FILE whether it is exactly what a release under the keep sheet SHEET gives, with or without
zeros behind it. The library decides: it releases FILE under SHEET, and FILE is verified if that gives
its own bytes back.

Each file has a line, in order, and the last line says how many were verified:

  card1.las: verified (557 bytes, 9 points, 1 record, 12 zeros behind it)
  card2.las: not verified: byte 107, number of points: 12, a release has 9
    byte 333: 3 points of class 5 (high-vegetation), 84 bytes: the sheet does not keep them; ...
  card3.las: not verified: refused 1: fewer than 227 bytes (length 0)
  3 files: 1 verified, 2 not verified, 0 not read

A file that passes the checks and is not verified has the first byte that differs in its line, counted
from 0, with the part of the file that it is in, what stands in that part and what a release has there.
The lines below say what is in the file that a release would not have: records and points that the sheet
does not keep, by class or since they lie outside all of its boxes; withheld points; bytes behind the
last counted point, between the records and the points, behind the header, in reserved fields and behind
the end of a text, spaces too; counts by return and bounds that are not those of the file's own points.
These lines explain and do not decide. Of those about records the first 32 are there, and how many more.

A file that a library of a lower level released ('korbishaf --version' says the level) may have what a
release no longer has, and is not verified then: spaces at the end of a text, from below level 2, and
withheld points and points that a line above 31 kept, from below level 3. Releasing it again drops them.

One of the words may be '-' for standard input. A file that can't be read is named on standard error, and
the others are still looked at. The exit status is 3 if a file was not read, else 1 if one was not
verified, else 0.
",
    run,
};

fn run(arguments: &Arguments) -> Result<(), Failure> {
    let Some((sheet, files)) = arguments.operands.split_last() else {
        return Err(COMMAND.misused("expected two words or more"));
    };
    COMMAND.reads_standard_input_once(&arguments.operands)?;
    let sheet = KeepSheet::read(Opened::new(sheet)?)?.checked()?;
    let mut summary = Summary::default();
    let mut listed = Vec::new();
    for file in files {
        let facts = look(file, &sheet, arguments.quiet);
        summary.add(&facts);
        if !facts.was_read() {
            console::say(facts.lines().trim_end());
        } else if !arguments.json {
            console::print(facts.lines().as_bytes())?;
        }
        if arguments.json {
            listed.push(facts.json());
        }
    }
    let end = if arguments.json {
        let mut members = vec![("files", Json::List(listed))];
        members.extend(summary.members());
        format!("{}\n", Json::Object(members))
    } else {
        summary.line()
    };
    console::print(end.as_bytes())?;
    summary.result()
}

/// Looks at one file. Its bytes and the released ones are gone before the next is read.
fn look(path: &OsStr, sheet: &Sheet, quiet: bool) -> Facts {
    let name = input::name(path);
    // a bar of its own for each file, which is gone before the file's line is printed
    let progress = Progress::new(quiet);
    let read = Opened::new(path).and_then(|opened| opened.read(&progress));
    let file = match read {
        Ok(file) => file,
        Err(failure) => return Facts::not_read(&name, failure.words()),
    };
    match release(&file, sheet.as_bytes(), &progress) {
        Ok((out, released)) => {
            progress.begin("comparing", None);
            Facts::released(&name, &file, (&out, released), sheet)
        }
        Err(Stopped::Failed(failure)) => Facts::not_read(&name, failure.words()),
        Err(Stopped::Refused(refused)) => Facts::refused(&name, &file, &refused),
    }
}

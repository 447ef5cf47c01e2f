//! `korbishaf mend`

mod changes;
mod json;
mod text;

use crate::arguments::Arguments;
use crate::command::{Command, Flag};
use crate::failure::Failure;
use crate::input::Opened;
use crate::output::Output;
use crate::progress::Progress;
use crate::{console, refusal, room};
use changes::Changes;

pub const COMMAND: Command = Command {
    name: "mend",
    operands: "IN OUT",
    count: (2, 2),
    flags: &[Flag::Force, Flag::Quiet, Flag::Json],
    summary: "write the scan IN to OUT, with a header that is right about the points",
    details: "\
Writes the scan IN to the file OUT, with twelve fields of the header set right: the number of points, the
points by return, 1 to 5, and the six bounds. No other byte changes. The number of points becomes the
smaller of the stated number and the whole points that are in the file, so that a file that was cut short
can be released; it never grows. The other fields are worked out over these points, and without points
the bounds are 0.

It prints each field that changed with its value before and after, or that nothing had to be mended; JSON
has all twelve. A header that is wrong otherwise is refused, with the reason in words on standard error.

Mending can't change what goes out, unless IN is a file that a release refuses with 9: what any other
file releases under any sheet is the same before and after.

OUT is whole or not there: it is written under a name of its own in the same folder, flushed, and then
renamed. What is there already is replaced only with --force. OUT may be IN then, which stays if nothing
had to be mended, or if it was changed in the meantime; a link stays, and what it leads to is replaced.
INT, TERM and HUP leave nothing behind. Where OUT is '-', the mended file goes to standard output, and
what is said of it to standard error unless --quiet is there.
",
    run,
};

fn run(arguments: &Arguments) -> Result<(), Failure> {
    let [file, out] = arguments.operands.as_slice() else {
        return Err(COMMAND.misused("expected two words"));
    };
    console::is_open()?;
    let opened = Opened::new(file)?;
    let mut output = Output::new(out, arguments)?;
    let mut in_place = false;
    if let Some(target) = &mut output.target {
        target.check(&[])?;
        in_place = target.is_in_place(&opened);
    }
    let name = opened.name.clone();
    let progress = Progress::new(arguments.quiet);
    let mut file = opened.read(&progress)?;
    room::is_left_beside(&name)?;
    progress.begin("mending", None);
    let changes = Changes::by_mending(&mut file)
        .map_err(|refused| Failure::Refused(refusal::of_file(&name, &file, &refused)))?;
    let mended = Mended {
        input: &name,
        output: &output.name,
        written: changes.any() || !in_place,
        changes: &changes,
    };
    let words = mended.words(arguments.json);
    if mended.written {
        output.hand_over(&file, &words, progress)
    } else {
        drop(progress);
        output.say(&words)
    }
}

/// What came of a mending.
struct Mended<'a> {
    /// The names of both files, as they may be shown.
    input: &'a str,
    output: &'a str,
    /// Whether the output is written: not where it is the input and would stay the same.
    written: bool,
    changes: &'a Changes,
}

impl Mended<'_> {
    /// What is said of it, without the end of the last line.
    fn words(&self, as_json: bool) -> String {
        if as_json {
            json::of(self).to_string()
        } else {
            text::of(self).trim_end().into()
        }
    }
}

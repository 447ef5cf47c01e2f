//! `korbishaf geokey`

mod json;
mod key;
pub(super) mod lookup;
mod text;

use crate::arguments::Arguments;
use crate::command::{Command, Flag};
use crate::failure::Failure;
use crate::input::Opened;
use crate::progress::Progress;
use crate::{console, refusal, room};
use lookup::Lookup;

pub const COMMAND: Command = Command {
    name: "geokey",
    operands: "FILE KEY",
    count: (2, 2),
    flags: &[Flag::Quiet, Flag::Json],
    summary: "say the value of one GeoKey of a scan, and what a lookup by halving gives",
    details: "\
Says the value of one GeoKey of the scan FILE, and what a lookup by halving gives. KEY is a number from 0
to 65535, or a name as 'korbishaf show' has it, in any case. This is an example of all that is printed:

  3072  ProjectedCSTypeGeoKey  32633
  by halving (2 of 3 entries read): the same

The first line is that of 'korbishaf show': the key, its name and its value. Of several entries with one
key the first counts, so this is the answer, whatever the second line says.

A lookup by halving reads the entry in the middle of those that are left, until it finds the key or none
is left: at most 13 of up to 8190 entries. It gives the same where the keys of the directory rise
strictly. Where they do not, it may miss a key or find another entry of it. If it gives something else,
the second line has that, and a warning follows for whoever relies on halving.

A file that does not pass and a key that can't be read are refused, with the reason in words on standard
error. The line about halving stands there too, if there is a directory to read.

Texts of the file are shown in ASCII, here and in JSON: a backslash is doubled, and a byte that is not
printable stands as \\xNN. They are cut behind 255 bytes. In JSON 'by_halving' has what halving gives, the
number of entries read and whether it differs; a double that is no number is a string, as in 'show'.
",
    run,
};

fn run(arguments: &Arguments) -> Result<(), Failure> {
    let [file, key] = arguments.operands.as_slice() else {
        return Err(COMMAND.misused("expected two words"));
    };
    let key = key::read(key).map_err(|mistake| COMMAND.misused(&mistake))?;
    let opened = Opened::new(file)?;
    let name = opened.name.clone();
    let progress = Progress::new(arguments.quiet);
    let file = opened.read(&progress)?;
    drop(progress);
    room::is_left_beside(&name)?;
    let lookup = Lookup::of(&file, key)
        .map_err(|refused| Failure::Refused(refusal::of_file(&name, &file, &refused)))?;
    let words = said(&name, &lookup, arguments.json).map_err(Failure::Refused)?;
    console::print(words.as_bytes())
}

/// What is printed of a key in a file of that name, or the words with which it is refused.
pub(super) fn said(name: &str, lookup: &Lookup<'_>, as_json: bool) -> Result<String, String> {
    match &lookup.plain {
        Err(refused) => Err(text::refused(name, lookup, refused)),
        Ok(_) if as_json => Ok(format!("{}\n", json::of(name, lookup))),
        Ok(_) => Ok(text::found(lookup)),
    }
}

//! What the command `korbishaf` does: it reads files, asks the library, writes files, and says what came of it.
//!
//! What is kept, refused and written is decided by the proved library, through the crate `korbishaf`. What is here is
//! tested, not proved.

#![warn(missing_docs)]

mod arguments;
mod command;
mod commands;
mod console;
mod facts;
mod failure;
mod input;
mod json;
mod keep_sheet;
mod layout;
mod output;
mod progress;
mod refusal;
mod releasing;
mod room;
mod shown;
mod signals;
mod table;
mod verify;
mod whole_file;

use std::ffi::OsString;

/// Runs the command with these arguments, without its own name, and gives its exit status.
pub fn run(arguments: impl IntoIterator<Item = OsString>) -> u8 {
    room::share();
    signals::watch();
    match commands::run(arguments.into_iter().collect()) {
        Ok(()) => 0,
        Err(failure) => {
            console::say(failure.words());
            failure.status()
        }
    }
}

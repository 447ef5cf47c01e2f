//! The commands.

mod explain;
mod geokey;
mod help;
mod list;
mod mend;
mod release;
mod report;
mod sheet;
mod show;
#[cfg(test)]
mod tests;
mod verify;

use crate::arguments::Arguments;
use crate::command::Command;
use crate::console;
use crate::failure::Failure;
use crate::shown;
use std::ffi::OsString;

/// All commands, in the order in which the help has them.
const COMMANDS: [&Command; 10] = [
    &release::COMMAND,
    &report::COMMAND,
    &list::COMMAND,
    &show::COMMAND,
    &geokey::COMMAND,
    &mend::COMMAND,
    &sheet::COMMAND,
    &verify::COMMAND,
    &explain::COMMAND,
    &help::COMMAND,
];

/// Runs the command that the words name.
pub fn run(words: Vec<OsString>) -> Result<(), Failure> {
    let Some((first, rest)) = words.split_first() else {
        let words = format!("korbishaf: expected a command\n\n{}", help::overview());
        return Err(Failure::Usage(words.trim_end().into()));
    };
    let text = match first.as_encoded_bytes() {
        b"--help" | b"-h" => Some(help::overview()),
        b"--version" | b"-V" => Some(version()),
        _ => None,
    };
    if let Some(text) = text {
        return match rest.first() {
            None => console::print(text.as_bytes()),
            Some(more) => Err(Failure::Usage(format!(
                "korbishaf {}: expected nothing behind it, found '{}'",
                shown::name(first),
                shown::name(more)
            ))),
        };
    }
    let command = find(first)?;
    let arguments = Arguments::read(command, rest)?;
    if arguments.help {
        return console::print(help::page(command).as_bytes());
    }
    (command.run)(&arguments)
}

/// The command of that name.
fn find(name: &OsString) -> Result<&'static Command, Failure> {
    COMMANDS
        .into_iter()
        .find(|command| name == command.name)
        .ok_or_else(|| {
            let names: Vec<_> = COMMANDS.iter().map(|command| command.name).collect();
            Failure::Usage(format!(
                "korbishaf: unknown command '{}'; the commands are {}",
                shown::name(name),
                names.join(", ")
            ))
        })
}

/// The tool's version, and which edition of the library it has.
fn version() -> String {
    format!(
        "korbishaf {} (level {})\n",
        env!("CARGO_PKG_VERSION"),
        korbishaf::level()
    )
}

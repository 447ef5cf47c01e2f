//! `korbishaf help`

use super::COMMANDS;
use crate::arguments::Arguments;
use crate::command::{Command, Flag};
use crate::console;
use crate::failure::Failure;

pub const COMMAND: Command = Command {
    name: "help",
    operands: "[COMMAND]",
    count: (0, 1),
    flags: &[],
    summary: "say what the commands do",
    details: "Says what the tool does, or what one command does.\n",
    run,
};

fn run(arguments: &Arguments) -> Result<(), Failure> {
    let text = match arguments.operands.first() {
        Some(name) => page(super::find(name)?),
        None => overview(),
    };
    console::print(text.as_bytes())
}

/// What the tool does.
pub fn overview() -> String {
    let mut text = String::from(
        "korbishaf cuts a sample out of a LAS 1.2 scan: what a keep sheet names, and nothing else.\n\nCommands:\n",
    );
    for command in COMMANDS {
        let call = format!("{} {}", command.name, command.operands);
        text.push_str(&format!("  {call:24}  {}\n", command.summary));
    }
    text.push_str(
        "\n'korbishaf help COMMAND' says more of one, 'korbishaf --version' which edition this is.\n\n\
         A keep sheet is a text with lines such as 'class 2', 'class 3-5', 'class ground',\n\
         'record LASF_Projection 34735' or 'box X -1500..2000 Y 0..4000', or the bytes that\n\
         'korbishaf sheet' makes of it.\n\
         '-' stands for standard input or output.\n\n\
         Exit status: 0 done, 1 refused or not verified, 2 wrong usage, 3 reading or writing failed.\n",
    );
    text
}

/// What one command does.
pub fn page(command: &Command) -> String {
    let mut text = format!("{}\n\n{}", command.usage(), command.details);
    if !command.flags.is_empty() {
        text.push_str("\nOptions:\n");
    }
    for flag in Flag::ALL
        .into_iter()
        .filter(|flag| command.flags.contains(flag))
    {
        let short = flag
            .short()
            .map_or(String::new(), |short| format!("-{short}, "));
        let name = flag.with_value(&format!("{short}--{}", flag.long()));
        text.push_str(&format!("  {name:18}  {}\n", flag.summary()));
    }
    text
}

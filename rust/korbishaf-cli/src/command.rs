//! What a command is, apart from what it does.

use crate::arguments::Arguments;
use crate::failure::Failure;
use crate::input::is_standard;
use std::ffi::OsString;

/// An option of a command.
#[derive(Clone, Copy, Debug, PartialEq, Eq)]
pub enum Flag {
    /// `--force`
    Force,
    /// `--quiet`
    Quiet,
    /// `--json`
    Json,
    /// `--output FILE`
    Output,
    /// `--class CLASS`
    Class,
    /// `--runs`
    Runs,
}

impl Flag {
    /// All of them, in the order in which a page lists them.
    pub const ALL: [Flag; 6] = [
        Flag::Force,
        Flag::Quiet,
        Flag::Json,
        Flag::Runs,
        Flag::Output,
        Flag::Class,
    ];

    /// Its long name, without the dashes.
    pub fn long(self) -> &'static str {
        match self {
            Flag::Force => "force",
            Flag::Quiet => "quiet",
            Flag::Json => "json",
            Flag::Output => "output",
            Flag::Class => "class",
            Flag::Runs => "runs",
        }
    }

    /// Its short name, if it has one.
    pub fn short(self) -> Option<char> {
        match self {
            Flag::Force => Some('f'),
            Flag::Quiet => Some('q'),
            Flag::Json | Flag::Class | Flag::Runs => None,
            Flag::Output => Some('o'),
        }
    }

    /// Its name in usage lines, with the dashes.
    pub fn usual(self) -> String {
        match self.short() {
            Some(short) if self.value().is_some() => format!("-{short}"),
            _ => format!("--{}", self.long()),
        }
    }

    /// What it takes, if it takes something.
    pub fn value(self) -> Option<&'static str> {
        match self {
            Flag::Force | Flag::Quiet | Flag::Json | Flag::Runs => None,
            Flag::Output => Some("FILE"),
            Flag::Class => Some("CLASS"),
        }
    }

    /// One of its names, and what it takes behind that.
    pub fn with_value(self, name: &str) -> String {
        match self.value() {
            Some(value) => format!("{name} {value}"),
            None => name.into(),
        }
    }

    /// What it does.
    pub fn summary(self) -> &'static str {
        match self {
            Flag::Force => "replace a file that is there already",
            Flag::Quiet => "show no progress; what goes wrong is still said",
            Flag::Json => "print JSON, for programs",
            Flag::Output => "write the sheet's bytes to FILE",
            Flag::Class => "say which line keeps CLASS, a number from 0 to 255 or a name",
            Flag::Runs => "have one line for points that stand side by side",
        }
    }
}

/// A command of the tool.
pub struct Command {
    /// Its name.
    pub name: &'static str,
    /// What has to follow it, as usage lines have it.
    pub operands: &'static str,
    /// The fewest and the most words that may follow it.
    pub count: (usize, usize),
    /// The options that it takes.
    pub flags: &'static [Flag],
    /// What it does, in a line.
    pub summary: &'static str,
    /// What it does, in full.
    pub details: &'static str,
    /// Does it.
    pub run: fn(&Arguments) -> Result<(), Failure>,
}

impl Command {
    /// The usage line.
    pub fn usage(&self) -> String {
        let mut line = format!("usage: korbishaf {}", self.name);
        for flag in self.flags {
            line.push_str(&format!(" [{}]", flag.with_value(&flag.usual())));
        }
        if !self.operands.is_empty() {
            line.push_str(&format!(" {}", self.operands));
        }
        line
    }

    /// Refuses where more than one of the words that are read stands for standard input.
    pub fn reads_standard_input_once(&self, words: &[OsString]) -> Result<(), Failure> {
        match words.iter().filter(|word| is_standard(word)).count() {
            0 | 1 => Ok(()),
            _ => Err(self.misused("only one of the words can be standard input")),
        }
    }

    /// A failure for wrong words behind the command, with the usage line.
    pub fn misused(&self, words: &str) -> Failure {
        Failure::Usage(format!(
            "korbishaf {}: {words}\n{} ('korbishaf help {}' says more)",
            self.name,
            self.usage(),
            self.name
        ))
    }
}

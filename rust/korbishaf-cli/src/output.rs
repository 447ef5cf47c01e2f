//! The file that a command makes, and what is said of it.

use crate::arguments::Arguments;
use crate::console;
use crate::failure::Failure;
use crate::input::is_standard;
use crate::progress::Progress;
use crate::shown;
use crate::whole_file::Target;
use std::ffi::OsStr;

/// Where the file goes to. What is said of it goes to standard output, or, where that has the file, to standard error.
pub struct Output {
    /// Its name, as it may be shown.
    pub name: String,
    /// Where it is written; none for standard output.
    pub target: Option<Target>,
    quiet: bool,
}

impl Output {
    /// Looks at the place for the file, which for `-` is standard output.
    pub fn new(path: &OsStr, arguments: &Arguments) -> Result<Self, Failure> {
        let (name, target) = if is_standard(path) {
            ("standard output".into(), None)
        } else {
            (shown::name(path), Some(Target::new(path, arguments.force)?))
        };
        Ok(Output {
            name,
            target,
            quiet: arguments.quiet,
        })
    }

    /// Writes the file, and then says the words.
    pub fn hand_over(&self, bytes: &[u8], words: &str, progress: Progress) -> Result<(), Failure> {
        match &self.target {
            Some(target) => target.write(bytes, &progress)?,
            None => console::print_all(bytes, &progress)?,
        }
        drop(progress);
        self.say(words)
    }

    /// Says the words; on standard error only where it is not to be quiet.
    pub fn say(&self, words: &str) -> Result<(), Failure> {
        match &self.target {
            Some(_) => console::print(format!("{words}\n").as_bytes()),
            None => {
                console::say(if self.quiet { "" } else { words });
                Ok(())
            }
        }
    }
}

//! The words behind a command.

use crate::command::{Command, Flag};
use crate::failure::Failure;
use crate::shown;
use std::ffi::{OsStr, OsString};
use std::os::unix::ffi::OsStrExt;

/// What was asked for.
#[derive(Debug, Default, PartialEq, Eq)]
pub struct Arguments {
    /// The words that are no options, as many as the command takes.
    pub operands: Vec<OsString>,
    /// Replace a file that is there already.
    pub force: bool,
    /// Show no progress.
    pub quiet: bool,
    /// Print JSON.
    pub json: bool,
    /// Have one line for points that stand side by side.
    pub runs: bool,
    /// Where to write to.
    pub output: Option<OsString>,
    /// The class that is asked about.
    pub class: Option<OsString>,
    /// Say what the command does, and no more.
    pub help: bool,
}

impl Arguments {
    /// Reads the words behind a command. Options may stand anywhere; behind `--` there are none.
    pub fn read(command: &Command, words: &[OsString]) -> Result<Self, Failure> {
        let mut read = Arguments::default();
        let mut words = words.iter();
        while let Some(word) = words.next() {
            match word.as_bytes() {
                b"--" => read.operands.extend(words.by_ref().cloned()),
                b"--help" | b"-h" => read.help = true,
                [b'-', _, ..] => {
                    let (flag, value) = find(command, word)?;
                    read.set(command, flag, value, || words.next().cloned())?;
                }
                _ => read.operands.push(word.clone()),
            }
        }
        let (fewest, most) = command.count;
        if !read.help && !(fewest..=most).contains(&read.operands.len()) {
            let expected = if most == 0 {
                "nothing"
            } else {
                command.operands
            };
            let found = match read.operands.len() {
                0 => "found nothing".to_string(),
                1 => "found one word".to_string(),
                count => format!("found {count} words"),
            };
            return Err(command.misused(&format!("expected {expected}, {found}")));
        }
        Ok(read)
    }

    fn set(
        &mut self,
        command: &Command,
        flag: Flag,
        value: Option<OsString>,
        next: impl FnOnce() -> Option<OsString>,
    ) -> Result<(), Failure> {
        match flag {
            Flag::Force => self.force = true,
            Flag::Quiet => self.quiet = true,
            Flag::Json => self.json = true,
            Flag::Runs => self.runs = true,
            Flag::Output => set_once(&mut self.output, value.or_else(next), command, flag)?,
            Flag::Class => set_once(&mut self.class, value.or_else(next), command, flag)?,
        }
        Ok(())
    }
}

/// Sets what an option takes. It has to be there, and once.
fn set_once(
    value: &mut Option<OsString>,
    found: Option<OsString>,
    command: &Command,
    flag: Flag,
) -> Result<(), Failure> {
    let name = flag.usual();
    let Some(found) = found else {
        let what = flag.value().unwrap_or("value").to_lowercase();
        return Err(command.misused(&format!("expected a {what} behind '{name}', found nothing")));
    };
    match value.replace(found) {
        None => Ok(()),
        Some(_) => Err(command.misused(&format!("'{name}' stands there twice"))),
    }
}

/// The option of a word such as `--force`, `-f`, `-o`, `-oFILE` or `--output=FILE`, and the value in the word.
fn find(command: &Command, word: &OsStr) -> Result<(Flag, Option<OsString>), Failure> {
    let unknown = || {
        let taken = match command.flags {
            [] => "takes no options".to_string(),
            flags => {
                let names: Vec<_> = flags
                    .iter()
                    .map(|flag| format!("--{}", flag.long()))
                    .collect();
                format!("the options are {}", names.join(", "))
            }
        };
        command.misused(&format!("unknown option '{}'; {taken}", shown::name(word)))
    };
    for &flag in command.flags {
        if let Some(rest) = word.as_bytes().strip_prefix(b"--") {
            match rest.strip_prefix(flag.long().as_bytes()) {
                Some([]) => return Ok((flag, None)),
                Some([b'=', value @ ..]) if flag.value().is_some() => {
                    return Ok((flag, Some(OsStr::from_bytes(value).into())));
                }
                _ => {}
            }
        } else if let [_, letter, value @ ..] = word.as_bytes()
            && flag
                .short()
                .is_some_and(|short| short == char::from(*letter))
        {
            match value {
                [] => return Ok((flag, None)),
                _ if flag.value().is_some() => {
                    return Ok((flag, Some(OsStr::from_bytes(value).into())));
                }
                _ => {}
            }
        }
    }
    Err(unknown())
}

#[cfg(test)]
mod tests {
    use super::*;

    const COMMAND: Command = Command {
        name: "try",
        operands: "ONE [TWO]",
        count: (1, 2),
        flags: &[Flag::Force, Flag::Output, Flag::Class],
        summary: "",
        details: "",
        run: |_| Ok(()),
    };

    fn read(words: &str) -> Result<Arguments, Failure> {
        let words: Vec<OsString> = words.split_whitespace().map(OsString::from).collect();
        Arguments::read(&COMMAND, &words)
    }

    fn refused(words: &str) -> String {
        read(words)
            .unwrap_err()
            .words()
            .lines()
            .next()
            .unwrap()
            .to_string()
    }

    #[test]
    fn options_stand_anywhere() {
        for words in [
            "a b --force -o c",
            "-f a -oc b",
            "--output=c a --force b",
            "--output c -f -- a b",
        ] {
            let wanted = Arguments {
                operands: vec!["a".into(), "b".into()],
                force: true,
                output: Some("c".into()),
                ..Arguments::default()
            };
            assert_eq!(read(words), Ok(wanted), "{words}");
        }
        for (words, class) in [
            ("--class 2 a", "2"),
            ("a --class=", ""),
            ("a --class -f", "-f"),
        ] {
            let wanted = Arguments {
                operands: vec!["a".into()],
                class: Some(class.into()),
                ..Arguments::default()
            };
            assert_eq!(read(words), Ok(wanted), "{words}");
        }
    }

    #[test]
    fn a_dash_and_what_follows_two_dashes_are_no_options() {
        assert_eq!(read("-").unwrap().operands, ["-"]);
        assert_eq!(read("-- --force -o").unwrap().operands, ["--force", "-o"]);
    }

    #[test]
    fn mistakes_are_said() {
        assert_eq!(
            refused(""),
            "korbishaf try: expected ONE [TWO], found nothing"
        );
        assert_eq!(
            refused("a b c"),
            "korbishaf try: expected ONE [TWO], found 3 words"
        );
        assert_eq!(
            refused("a -o"),
            "korbishaf try: expected a file behind '-o', found nothing"
        );
        assert_eq!(
            refused("a -o b -o c"),
            "korbishaf try: '-o' stands there twice"
        );
        assert_eq!(
            refused("a --class"),
            "korbishaf try: expected a class behind '--class', found nothing"
        );
        assert_eq!(
            refused("a --class 2 --class=2"),
            "korbishaf try: '--class' stands there twice"
        );
        let unknown =
            "korbishaf try: unknown option '--json'; the options are --force, --output, --class";
        assert_eq!(refused("a --json"), unknown);
        for words in [
            "--forc",
            "--forced",
            "--force=1",
            "-x",
            "-fo",
            "-ff",
            "--",
            "-c 2 a",
            "--class2 a",
        ] {
            assert!(read(words).is_err(), "{words}");
        }
    }

    #[test]
    fn help_needs_no_operands() {
        assert!(read("--help").unwrap().help);
        assert!(read("a -h").unwrap().help);
        assert!(!read("-- -h").unwrap().help);
    }

    #[test]
    fn the_usage_line() {
        assert_eq!(
            COMMAND.usage(),
            "usage: korbishaf try [--force] [-o FILE] [--class CLASS] ONE [TWO]"
        );
    }
}

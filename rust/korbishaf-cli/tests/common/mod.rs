//! What the tests of the command share: folders of their own, and runs of the built program in them.

#![allow(dead_code, reason = "not every test uses everything")]

pub mod json;
pub mod scan;

use std::ffi::OsStr;
use std::fs;
use std::path::{Path, PathBuf};
use std::process::{Command, Output, Stdio};
use std::sync::atomic::{AtomicU32, Ordering};

/// A folder of its own, which is removed in the end.
pub struct Scratch(PathBuf);

impl Scratch {
    pub fn new() -> Self {
        static NEXT: AtomicU32 = AtomicU32::new(0);
        let number = NEXT.fetch_add(1, Ordering::Relaxed);
        let name = format!("korbishaf-cli-{}-{number}", std::process::id());
        let path = std::env::temp_dir().join(name);
        fs::create_dir(&path).unwrap();
        Scratch(path)
    }

    /// A folder with the files of one of the repository's cards: `in.las`, `sheet.bin`, `expected.las` and `line`.
    pub fn with_card(card: &str) -> Self {
        let scratch = Scratch::new();
        let from = Path::new(env!("CARGO_MANIFEST_DIR"))
            .join("../../cards")
            .join(card);
        for name in ["in.las", "sheet.bin", "expected.las", "line"] {
            fs::copy(from.join(name), scratch.path(name)).unwrap();
        }
        scratch
    }

    pub fn path(&self, name: impl AsRef<Path>) -> PathBuf {
        self.0.join(name)
    }

    pub fn write(&self, name: impl AsRef<Path>, bytes: impl AsRef<[u8]>) {
        fs::write(self.path(name), bytes).unwrap();
    }

    pub fn read(&self, name: impl AsRef<Path>) -> Vec<u8> {
        fs::read(self.path(name)).unwrap()
    }

    /// The names of all that is in the folder, in order.
    pub fn names(&self) -> Vec<String> {
        let entries = fs::read_dir(&self.0).unwrap();
        let mut names: Vec<String> = entries
            .map(|entry| entry.unwrap().file_name().to_string_lossy().into_owned())
            .collect();
        names.sort();
        names
    }

    /// The command with these words, to be run in the folder, with nothing on standard input.
    pub fn command<I: AsRef<OsStr>>(&self, words: impl IntoIterator<Item = I>) -> Command {
        let mut command = Command::new(env!("CARGO_BIN_EXE_korbishaf"));
        command
            .args(words)
            .current_dir(&self.0)
            .stdin(Stdio::null());
        command
    }

    /// Runs the command with these words, in the folder, and gives what came of it.
    pub fn run<I: AsRef<OsStr>>(&self, words: impl IntoIterator<Item = I>) -> Ran {
        Ran::of(self.command(words).output().unwrap())
    }

    /// The same for words that are parted by blanks.
    pub fn says(&self, words: &str) -> Ran {
        self.run(words.split_whitespace())
    }
}

impl Drop for Scratch {
    fn drop(&mut self) {
        let _ = fs::remove_dir_all(&self.0);
    }
}

/// What came of a run: the exit status (none where a signal ended it), and both outputs.
#[derive(Debug, PartialEq, Eq)]
pub struct Ran {
    pub status: Option<i32>,
    pub out: String,
    pub err: String,
}

impl Ran {
    pub fn of(output: Output) -> Self {
        Ran {
            status: output.status.code(),
            out: String::from_utf8_lossy(&output.stdout).into_owned(),
            err: String::from_utf8_lossy(&output.stderr).into_owned(),
        }
    }

    pub fn new(status: i32, out: &str, err: &str) -> Self {
        Ran {
            status: Some(status),
            out: out.into(),
            err: err.into(),
        }
    }
}

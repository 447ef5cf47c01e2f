//! A folder with the file, the sheet and the output, and releases in a process of their own that can be killed.

use std::fs::{self, File};
use std::io::{BufRead, BufReader, Write};
use std::os::unix::fs::FileExt;
use std::path::PathBuf;
use std::process::{Child, ChildStdout, Command, Stdio};
use std::time::{Duration, Instant};

/// The folder, which goes with the value.
pub struct ReleaseFolder {
    /// How the program is to release, in its own word.
    way: &'static str,
    folder: PathBuf,
    output: File,
    /// What the output holds before each release.
    before: Vec<u8>,
}

impl ReleaseFolder {
    pub fn new(way: &'static str, file: &[u8], sheet: &[u8], before: Vec<u8>) -> Self {
        let folder = std::env::temp_dir().join(format!("power-cut-{}", std::process::id()));
        fs::create_dir_all(&folder).expect("the folder is made");
        fs::write(folder.join("file"), file).expect("the file is written");
        fs::write(folder.join("sheet"), sheet).expect("the sheet is written");
        let mut options = File::options();
        let options = options.read(true).write(true).create_new(true);
        let output = options.open(folder.join("output"));
        Self {
            way,
            output: output.expect("the output is made"),
            folder,
            before,
        }
    }

    /// Releases to the end, and says how long that took.
    pub fn release(&self) -> Duration {
        let mut release = Release::ready(self);
        let start = Instant::now();
        release.go();
        assert_eq!(release.line(), "0");
        let took = start.elapsed();
        release.process.wait().expect("the release ends");
        took
    }

    /// Kills a release this long after its start, if it has not ended by then. Sleeps meanwhile: a loop that looks at
    /// the clock would keep the release waiting where it has to share a core with it.
    pub fn cut_release(&self, after: Duration) {
        let mut release = Release::ready(self);
        release.go();
        std::thread::sleep(after);
        release.process.kill().expect("the release is killed");
        release.process.wait().expect("the release ends");
    }

    /// The output as it stands.
    pub fn output(&self) -> Vec<u8> {
        let mut bytes = vec![0; self.before.len()];
        self.output
            .read_exact_at(&mut bytes, 0)
            .expect("the output is read");
        bytes
    }
}

impl Drop for ReleaseFolder {
    fn drop(&mut self) {
        let _ = fs::remove_dir_all(&self.folder);
    }
}

/// A release that waits for its start.
struct Release {
    process: Child,
    lines: BufReader<ChildStdout>,
}

impl Release {
    fn ready(folder: &ReleaseFolder) -> Self {
        folder
            .output
            .write_all_at(&folder.before, 0)
            .expect("the output is filled");
        let mut process = Command::new(env!("CARGO_BIN_EXE_release_into"))
            .arg(folder.way)
            .args(["file", "sheet", "output"].map(|name| folder.folder.join(name)))
            .stdin(Stdio::piped())
            .stdout(Stdio::piped())
            .spawn()
            .expect("the release is started");
        let lines = BufReader::new(process.stdout.take().expect("its output is read"));
        let mut release = Self { process, lines };
        assert_eq!(release.line(), "ready");
        release
    }

    fn go(&mut self) {
        let input = self
            .process
            .stdin
            .as_mut()
            .expect("its input is written to");
        input.write_all(b"\n").expect("it waits for a byte");
    }

    /// The next line that it prints, without its end.
    fn line(&mut self) -> String {
        let mut line = String::new();
        self.lines.read_line(&mut line).expect("it prints a line");
        line.trim_end().to_string()
    }
}

//! The progress bar, on a terminal.

mod common;
#[path = "common/system.rs"]
mod system;

use common::Scratch;
use compare::spec::FileSpec;
use std::fs;
use std::io::{Read, Write};
use std::os::unix::process::ExitStatusExt;
use std::process::{Child, Command, Stdio};
use std::sync::{Arc, Mutex};
use std::thread::{self, JoinHandle, sleep};
use std::time::{Duration, Instant};

/// A release whose standard error is a terminal. Its file comes through standard input, of which it has got the half.
struct OnTerminal {
    child: Child,
    seen: Arc<Mutex<Vec<u8>>>,
    reader: JoinHandle<()>,
    rest: Vec<u8>,
}

impl OnTerminal {
    /// Starts it; none where the machine gives no terminal.
    fn start(command: &mut Command, file: &[u8]) -> Option<Self> {
        let (mut terminal, written) = system::terminal()?;
        command
            .stdin(Stdio::piped())
            .stdout(Stdio::null())
            .stderr(written);
        let mut child = command.spawn().unwrap();
        // the terminal ends for the reader only when nobody can write to it any more
        command.stderr(Stdio::null());
        let seen = Arc::new(Mutex::new(Vec::new()));
        let all = Arc::clone(&seen);
        let reader = thread::spawn(move || {
            let mut part = [0; 1000];
            while let Ok(count @ 1..) = terminal.read(&mut part) {
                all.lock().unwrap().extend(&part[..count]);
            }
        });
        let (first, rest) = file.split_at(file.len() / 2);
        child.stdin.as_mut().unwrap().write_all(first).unwrap();
        Some(OnTerminal {
            child,
            seen,
            reader,
            rest: rest.to_vec(),
        })
    }

    /// Waits until the terminal shows what was read.
    fn await_bar(&self) {
        let end = Instant::now() + Duration::from_secs(60);
        while !String::from_utf8_lossy(&self.seen.lock().unwrap()).contains(" kB ") {
            assert!(Instant::now() < end, "there is no bar");
            sleep(Duration::from_millis(5));
        }
    }

    /// Gives the release the rest of its file, and gives all that the terminal has got in the end.
    fn finish(mut self) -> String {
        let mut input = self.child.stdin.take().unwrap();
        input.write_all(&self.rest).unwrap();
        drop(input);
        assert!(self.child.wait().unwrap().success());
        self.text()
    }

    fn text(self) -> String {
        self.reader.join().unwrap();
        String::from_utf8(self.seen.lock().unwrap().clone()).unwrap()
    }
}

fn folder() -> (Scratch, Vec<u8>) {
    let scratch = Scratch::new();
    scratch.write("sheet.txt", "class 7");
    let mut file = FileSpec::bare(0);
    file.points = vec![vec![7; 20]; 1000];
    (scratch, file.bytes())
}

#[test]
fn a_terminal_gets_a_bar_that_is_cleared_in_the_end() {
    let (scratch, file) = folder();
    let mut command = scratch.command(["release", "-", "sheet.txt", "out.las"]);
    let Some(run) = OnTerminal::start(&mut command, &file) else {
        return;
    };
    run.await_bar();
    let text = run.finish();
    assert!(text.starts_with("\rreading"), "{text:?}");
    assert!(text.contains("\rreading   10.1 kB  "), "{text:?}");
    assert!(text.contains("B/s"), "{text:?}");
    assert!(text.ends_with("\r\x1B[K"), "{text:?}");
    assert_eq!(scratch.read("out.las").len(), 227 + 20 * 1000);
}

#[test]
fn a_quiet_release_shows_nothing() {
    let (scratch, file) = folder();
    let mut command = scratch.command(["release", "--quiet", "-", "sheet.txt", "out.las"]);
    let Some(run) = OnTerminal::start(&mut command, &file) else {
        return;
    };
    // long enough for several bars
    sleep(Duration::from_millis(500));
    assert_eq!(run.finish(), "");
}

/// The bar does not stay where a signal ends the program.
#[test]
fn a_signal_clears_the_bar() {
    let (scratch, file) = folder();
    let mut command = scratch.command(["release", "-", "sheet.txt", "out.las"]);
    let Some(mut run) = OnTerminal::start(&mut command, &file) else {
        return;
    };
    run.await_bar();
    system::send(&run.child, system::TERM);
    assert_eq!(run.child.wait().unwrap().signal(), Some(system::TERM));
    let text = run.text();
    assert!(
        text.starts_with("\rreading") && text.ends_with("\r\x1B[K"),
        "{text:?}"
    );
}

/// Where standard error is no terminal there is no bar, however long it takes.
#[test]
fn a_file_gets_no_bar() {
    let (scratch, file) = folder();
    let mut command = scratch.command(["release", "-", "sheet.txt", "out.las"]);
    command.stdin(Stdio::piped()).stdout(Stdio::null());
    command.stderr(fs::File::create(scratch.path("err")).unwrap());
    let mut child = command.spawn().unwrap();
    let mut input = child.stdin.take().unwrap();
    input.write_all(&file[..5000]).unwrap();
    sleep(Duration::from_millis(300));
    input.write_all(&file[5000..]).unwrap();
    drop(input);
    assert!(child.wait().unwrap().success());
    assert_eq!(scratch.read("err"), b"");
}

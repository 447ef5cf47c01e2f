//! Releases and mendings that do not get to their end: signals, full disks, outputs that nobody reads.

mod common;
#[path = "common/system.rs"]
mod system;

use common::{Ran, Scratch};
use compare::spec::FileSpec;
use std::fs;
use std::io::Write;
use std::os::unix::process::ExitStatusExt;
use std::process::{Child, Command, Stdio};
use std::thread::sleep;
use std::time::Duration;
use system::{CONT, HUP, INT, KILL, STOP, TERM, send};

/// A folder with a file of so many points, all of which the sheet keeps.
fn folder(points: usize) -> Scratch {
    let scratch = Scratch::new();
    let mut file = FileSpec::bare(0);
    let mut point = vec![7; 20];
    point[15] = 2;
    file.points = vec![point; points];
    scratch.write("in.las", file.bytes());
    scratch.write("sheet.txt", "class 2");
    scratch
}

/// Whether something half made is in the folder.
fn has_part(scratch: &Scratch) -> bool {
    scratch
        .names()
        .iter()
        .any(|name| name.starts_with(".korbishaf-") && name.ends_with(".part"))
}

/// Starts a command and stops it in the middle of writing; none where it was too fast.
fn stopped_while_writing(scratch: &Scratch, words: &str) -> Option<Child> {
    let mut command = scratch.command(words.split(' '));
    command.stdout(Stdio::null()).stderr(Stdio::piped());
    let mut child = command.spawn().unwrap();
    while child.try_wait().unwrap().is_none() {
        if has_part(scratch) {
            send(&child, STOP);
            sleep(Duration::from_millis(2));
            if has_part(scratch) {
                break;
            }
            send(&child, CONT);
        }
    }
    child.try_wait().unwrap().is_none().then_some(child)
}

/// Tries until a command was stopped in the middle of writing, each time with a file of that name and these bytes.
fn stop_while_writing(scratch: &Scratch, words: &str, (name, bytes): (&str, &[u8])) -> Child {
    for _ in 0..50 {
        scratch.write(name, bytes);
        if let Some(child) = stopped_while_writing(scratch, words) {
            return child;
        }
    }
    panic!("'{words}' could not be stopped while it wrote");
}

/// The same, and ends the command by a signal.
fn end_while_writing(scratch: &Scratch, words: &str, signal: i32, file: (&str, &[u8])) {
    let mut child = stop_while_writing(scratch, words, file);
    send(&child, signal);
    send(&child, CONT);
    assert_eq!(child.wait().unwrap().signal(), Some(signal));
}

const RELEASE: &str = "release --force in.las sheet.txt out.las";
const MEND: &str = "mend --force in.las in.las";

#[test]
fn signals_leave_nothing_half_made() {
    let scratch = folder(1_000_000);
    for signal in [INT, TERM, HUP] {
        end_while_writing(&scratch, RELEASE, signal, ("out.las", b"older"));
        assert_eq!(scratch.names(), ["in.las", "out.las", "sheet.txt"]);
        assert_eq!(scratch.read("out.las"), b"older");
    }
}

#[test]
fn a_kill_leaves_the_output_as_it_was() {
    let scratch = folder(1_000_000);
    end_while_writing(&scratch, RELEASE, KILL, ("out.las", b"older"));
    assert!(has_part(&scratch));
    assert_eq!(scratch.read("out.las"), b"older");
    assert_eq!(
        scratch.says(RELEASE).status,
        Some(0),
        "what a killed run left is in nobody's way"
    );
}

/// Where a scan is mended in place there may be no other copy of it.
#[test]
fn a_mending_in_place_that_is_cut_short_leaves_the_scan_as_it_was() {
    let scratch = folder(1_000_000);
    let scan = scratch.read("in.las");
    for signal in [INT, TERM, HUP, KILL] {
        end_while_writing(&scratch, MEND, signal, ("in.las", &scan));
        assert!(scratch.read("in.las") == scan);
        assert_eq!(has_part(&scratch), signal == KILL);
    }
}

/// A scan that seems to be cut short may still be on its way here.
#[test]
fn a_scan_that_grows_while_it_is_mended_in_place_stays() {
    let scratch = folder(1_000_000);
    let mut scan = scratch.read("in.las");
    let child = stop_while_writing(&scratch, MEND, ("in.las", &scan));
    scan.push(7);
    scratch.write("in.las", &scan);
    send(&child, CONT);
    let ran = Ran::of(child.wait_with_output().unwrap());
    let words = "in.las: was changed in the meantime, and stays\n";
    assert_eq!(ran, Ran::new(3, "", words));
    assert!(scratch.read("in.las") == scan);
    assert_eq!(scratch.names(), ["in.las", "sheet.txt"]);
}

#[test]
fn signals_while_reading_end_it_at_once() {
    let scratch = folder(10_000);
    for signal in [INT, TERM, HUP] {
        let mut command = scratch.command(["release", "-", "sheet.txt", "out.las"]);
        let mut child = reading(&mut command, &scratch.read("in.las"));
        send(&child, signal);
        assert_eq!(child.wait().unwrap().signal(), Some(signal));
        assert_eq!(scratch.names(), ["in.las", "sheet.txt"]);
    }
}

#[test]
fn a_signal_that_is_ignored_stays_so() {
    let scratch = folder(10_000);
    let file = scratch.read("in.las");
    let mut command = Command::new("sh");
    let script = "trap '' HUP; exec \"$0\" release - sheet.txt out.las";
    command
        .args(["-c", script, env!("CARGO_BIN_EXE_korbishaf")])
        .current_dir(scratch.path(""));
    let mut child = reading(&mut command, &file);
    send(&child, HUP);
    child
        .stdin
        .take()
        .unwrap()
        .write_all(&file[FIRST..])
        .unwrap();
    let ran = Ran::of(child.wait_with_output().unwrap());
    assert_eq!(
        ran,
        Ran::new(0, "released 200227 points 10000 records 0\n", "")
    );
}

/// Starts a command that reads a file from its standard input, and gives it more of it than a pipe holds: so it has
/// begun to read, and waits for the rest.
fn reading(command: &mut Command, file: &[u8]) -> Child {
    command
        .stdin(Stdio::piped())
        .stdout(Stdio::piped())
        .stderr(Stdio::piped());
    let mut child = command.spawn().unwrap();
    child
        .stdin
        .as_mut()
        .unwrap()
        .write_all(&file[..FIRST])
        .unwrap();
    child
}

/// More than the 65,536 bytes that a pipe holds.
const FIRST: usize = 100_000;

/// The command under a limit of so many blocks of 512 bytes, or 1,024 in some shells, for each file.
fn limited(scratch: &Scratch, words: &str) -> Ran {
    let script = format!("ulimit -f 1; exec \"$0\" {words}");
    let mut command = Command::new("sh");
    command
        .args(["-c", &script, env!("CARGO_BIN_EXE_korbishaf")])
        .current_dir(scratch.path(""));
    Ran::of(command.output().unwrap())
}

#[test]
fn a_full_disk_leaves_nothing_half_made() {
    let scratch = folder(10_000);
    let wanted = Ran::new(3, "", "out.las: File too large\n");
    assert_eq!(
        limited(&scratch, "release in.las sheet.txt out.las"),
        wanted
    );
    assert_eq!(scratch.names(), ["in.las", "sheet.txt"]);
    scratch.write("out.las", "older");
    assert_eq!(
        limited(&scratch, "release --force in.las sheet.txt out.las"),
        wanted
    );
    assert_eq!(scratch.names(), ["in.las", "out.las", "sheet.txt"]);
    assert_eq!(scratch.read("out.las"), b"older");
    let scan = scratch.read("in.las");
    let wanted = Ran::new(3, "", "in.las: File too large\n");
    assert_eq!(limited(&scratch, MEND), wanted);
    assert_eq!(scratch.names(), ["in.las", "out.las", "sheet.txt"]);
    assert!(scratch.read("in.las") == scan);
}

#[test]
fn a_full_standard_output_is_said() {
    let scratch = folder(10_000);
    let wanted = Ran::new(3, "", "standard output: No space left on device\n");
    for words in [
        "release in.las sheet.txt out.las",
        "release in.las sheet.txt -",
    ] {
        let mut command = scratch.command(words.split(' '));
        command.stdout(fs::File::create("/dev/full").unwrap());
        assert_eq!(Ran::of(command.output().unwrap()), wanted);
    }
    assert_eq!(scratch.read("out.las").len(), 227 + 20 * 10_000);
}

#[test]
fn a_closed_pipe_is_said() {
    let scratch = folder(100_000);
    for words in [
        "release in.las sheet.txt out.las",
        "release in.las sheet.txt -",
    ] {
        let (reader, writer) = std::io::pipe().unwrap();
        drop(reader);
        let mut command = scratch.command(words.split(' '));
        let ran = Ran::of(command.stdout(writer).output().unwrap());
        assert_eq!(ran, Ran::new(3, "", "standard output: Broken pipe\n"));
    }
}

#[test]
fn a_closed_standard_output_is_said_before_anything_is_done() {
    let scratch = folder(1);
    let mut command = Command::new("sh");
    let script = "exec \"$0\" release in.las sheet.txt out.las >&-";
    command
        .args(["-c", script, env!("CARGO_BIN_EXE_korbishaf")])
        .current_dir(scratch.path(""));
    let ran = Ran::of(command.output().unwrap());
    assert_eq!(ran, Ran::new(3, "", "standard output: it is closed\n"));
    assert_eq!(scratch.names(), ["in.las", "sheet.txt"]);
}

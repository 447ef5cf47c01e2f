//! Where `korbishaf mend` writes to: in place, over other files, to standard output.

mod common;
#[path = "common/known.rs"]
mod known;

use common::{Ran, Scratch, json};
use known::{LYING, clean, lying};
use std::fs::{self, File, Permissions};
use std::os::unix::fs::{MetadataExt, PermissionsExt, symlink};
use std::process::{Command, Stdio};

/// A folder with a file that has to be mended.
fn folder() -> Scratch {
    let scratch = Scratch::new();
    scratch.write("in.las", lying());
    scratch
}

/// What is said where it was mended.
fn mended(input: &str, output: &str) -> String {
    format!("{input}: 5 fields mended, written to {output}\n{LYING}")
}

/// What tells whether a file was written: which one it is, and when it was changed.
fn state(scratch: &Scratch, name: &str) -> (u64, i64, i64) {
    let known = fs::metadata(scratch.path(name)).unwrap();
    (known.ino(), known.mtime(), known.mtime_nsec())
}

#[test]
fn the_scan_itself_is_replaced_with_force_alone() {
    let scratch = folder();
    fs::set_permissions(scratch.path("in.las"), Permissions::from_mode(0o640)).unwrap();
    let before = state(&scratch, "in.las");
    let words = "in.las: exists already; --force replaces it\n";
    assert_eq!(scratch.says("mend in.las in.las"), Ran::new(2, "", words));
    assert!(scratch.read("in.las") == lying());
    assert_eq!(state(&scratch, "in.las"), before);
    let ran = scratch.says("mend --force in.las in.las");
    assert_eq!(ran, Ran::new(0, &mended("in.las", "in.las"), ""));
    assert!(scratch.read("in.las") == clean().bytes());
    let kept = fs::metadata(scratch.path("in.las")).unwrap().permissions();
    assert_eq!(kept.mode() & 0o777, 0o640);
    assert_ne!(state(&scratch, "in.las").0, before.0, "it was renamed");
    assert_eq!(scratch.names(), ["in.las"]);
}

#[test]
fn a_scan_that_is_right_is_not_written_in_place() {
    let scratch = Scratch::new();
    scratch.write("in.las", clean().bytes());
    symlink("in.las", scratch.path("link.las")).unwrap();
    let before = state(&scratch, "in.las");
    for words in [
        "in.las in.las",
        "in.las ./in.las",
        "in.las link.las",
        "link.las in.las",
    ] {
        let ran = scratch.says(&format!("mend -f {words}"));
        let name = words.split(' ').next().unwrap();
        let said = format!("{name}: nothing had to be mended, left as it is\n");
        assert_eq!(ran, Ran::new(0, &said, ""));
        assert_eq!(state(&scratch, "in.las"), before);
    }
    let ran = scratch.says("mend -f --json in.las in.las");
    let said = json::read(&ran.out).unwrap();
    assert_eq!(said.at("written"), &json::Value::Bool(false));
    assert_eq!(said.at("fields_changed").number(), 0);
    assert_eq!(state(&scratch, "in.las"), before);
}

#[test]
fn a_link_stays_and_what_it_leads_to_is_mended() {
    let scratch = Scratch::new();
    fs::create_dir(scratch.path("folder")).unwrap();
    scratch.write("folder/real.las", lying());
    symlink("folder/real.las", scratch.path("link.las")).unwrap();
    let ran = scratch.says("mend -f link.las link.las");
    assert_eq!(ran, Ran::new(0, &mended("link.las", "link.las"), ""));
    assert!(scratch.path("link.las").is_symlink());
    assert!(scratch.read("folder/real.las") == clean().bytes());
}

#[test]
fn another_file_is_replaced_with_force_alone() {
    let scratch = folder();
    scratch.write("out.las", "older");
    let words = "out.las: exists already; --force replaces it\n";
    assert_eq!(scratch.says("mend in.las out.las"), Ran::new(2, "", words));
    assert_eq!(scratch.read("out.las"), b"older");
    let ran = scratch.says("mend in.las out.las -f");
    assert_eq!(ran, Ran::new(0, &mended("in.las", "out.las"), ""));
    assert!(scratch.read("out.las") == clean().bytes());
    assert!(scratch.read("in.las") == lying());
}

#[test]
fn what_is_not_read_or_written_is_said() {
    let scratch = folder();
    fs::create_dir(scratch.path("folder")).unwrap();
    for (words, status, said) in [
        ("none.las out.las", 3, "none.las: No such file or directory"),
        ("folder out.las", 3, "folder: Is a directory"),
        ("in.las folder", 2, "folder: is a folder"),
        (
            "in.las none/out.las",
            3,
            "none/out.las: its folder: No such file or directory",
        ),
        (
            "in.las /dev/null",
            2,
            "/dev/null: is no plain file; '-' writes to standard output",
        ),
    ] {
        let ran = scratch.says(&format!("mend -f {words}"));
        assert_eq!(ran, Ran::new(status, "", &format!("{said}\n")));
    }
    assert_eq!(scratch.names(), ["folder", "in.las"]);
    assert!(scratch.read("in.las") == lying());
}

#[test]
fn a_dash_is_standard_input_or_output() {
    let scratch = folder();
    let run = |words: &str| {
        let mut command = scratch.command(words.split(' '));
        command.stdin(File::open(scratch.path("in.las")).unwrap());
        command.output().unwrap()
    };
    let ran = Ran::of(run("mend - out.las"));
    assert_eq!(ran, Ran::new(0, &mended("standard input", "out.las"), ""));
    assert!(scratch.read("out.las") == clean().bytes());
    let said = mended("in.las", "standard output");
    for (options, wanted) in [("", said.as_str()), ("--quiet ", "")] {
        let output = run(&format!("mend {options}in.las -"));
        assert_eq!(output.status.code(), Some(0));
        assert!(output.stdout == clean().bytes());
        assert_eq!(String::from_utf8(output.stderr).unwrap(), wanted);
    }
    let output = run("mend --json - -");
    assert!(output.stdout == clean().bytes());
    let said = json::read(&String::from_utf8(output.stderr).unwrap()).unwrap();
    assert_eq!(said.at("file").text(), "standard input");
    assert_eq!(said.at("output").text(), "standard output");
    let ran = Ran::of(run("mend --force - in.las"));
    assert_eq!(ran, Ran::new(0, &mended("standard input", "in.las"), ""));
    assert!(scratch.read("in.las") == clean().bytes());
}

#[test]
fn what_was_done_is_said_with_quiet_too() {
    let scratch = folder();
    let ran = scratch.says("mend --quiet in.las out.las");
    assert_eq!(ran, Ran::new(0, &mended("in.las", "out.las"), ""));
}

#[test]
fn a_closed_standard_output_is_said_before_anything_is_done() {
    let scratch = folder();
    let mut command = Command::new("sh");
    let script = "exec \"$0\" mend --force in.las in.las >&-";
    command.args(["-c", script, env!("CARGO_BIN_EXE_korbishaf")]);
    command.current_dir(scratch.path("")).stdin(Stdio::null());
    let ran = Ran::of(command.output().unwrap());
    assert_eq!(ran, Ran::new(3, "", "standard output: it is closed\n"));
    assert!(scratch.read("in.las") == lying());
}

#[test]
fn a_full_standard_output_is_said() {
    let scratch = folder();
    for words in ["mend in.las out.las", "mend in.las -"] {
        let mut command = scratch.command(words.split(' '));
        command.stdout(File::create("/dev/full").unwrap());
        let wanted = Ran::new(3, "", "standard output: No space left on device\n");
        assert_eq!(Ran::of(command.output().unwrap()), wanted);
    }
    assert!(scratch.read("out.las") == clean().bytes());
}

//! `korbishaf verify`, as a process.

mod common;
#[path = "common/known.rs"]
mod known;

use common::{Ran, Scratch};
use known::{SHEET, clean, said_of, shelf};
use std::ffi::OsStr;
use std::io::Write;
use std::os::unix::ffi::OsStrExt;
use std::process::Stdio;

#[test]
fn a_released_file_is_verified() {
    let wanted = "a.las: verified (331 bytes, 2 points, 1 record)\n\
                  1 file: 1 verified, 0 not verified, 0 not read\n";
    assert_eq!(said_of(|_| {}), Ran::new(0, wanted, ""));
}

#[test]
fn zeros_behind_a_released_file_are_counted() {
    for (zeros, words) in [(1, "1 zero"), (12, "12 zeros"), (5000, "5000 zeros")] {
        let wanted = format!(
            "a.las: verified (331 bytes, 2 points, 1 record, {words} behind it)\n\
             1 file: 1 verified, 0 not verified, 0 not read\n"
        );
        let ran = said_of(|spec| spec.trailing = vec![0; zeros]);
        assert_eq!(ran, Ran::new(0, &wanted, ""));
    }
}

#[test]
fn the_cards_are_verified() {
    let said = [
        ("yard", "557 bytes, 9 points, 1 record"),
        ("survey", "575 bytes, 5 points, 2 records"),
    ];
    for (card, what) in said {
        let scratch = Scratch::with_card(card);
        scratch.write(
            "more.las",
            [scratch.read("expected.las"), vec![0; 40]].concat(),
        );
        let wanted = format!(
            "expected.las: verified ({what})\nmore.las: verified ({what}, 40 zeros behind it)\n\
             2 files: 2 verified, 0 not verified, 0 not read\n"
        );
        let ran = scratch.says("verify expected.las more.las sheet.bin");
        assert_eq!(ran, Ran::new(0, &wanted, ""));
    }
}

#[test]
fn many_files_are_looked_at_and_the_status_tells_the_worst() {
    let (scratch, lines) = shelf();
    let wanted = format!("{lines}3 files: 1 verified, 2 not verified, 0 not read\n");
    let ran = scratch.says("verify good.las leak.las cut.las sheet.txt");
    assert_eq!(ran, Ran::new(1, &wanted, ""));

    let wanted = format!("{lines}5 files: 1 verified, 2 not verified, 2 not read\n");
    let said = "none.las: not read: No such file or directory\n.: not read: Is a directory\n";
    let ran = scratch.says("verify --quiet good.las none.las leak.las . cut.las sheet.txt");
    assert_eq!(ran, Ran::new(3, &wanted, said));

    let said = "none.las: not read: No such file or directory\n";
    let wanted = "1 file: 0 verified, 0 not verified, 1 not read\n";
    let ran = scratch.says("verify none.las sheet.txt");
    assert_eq!(ran, Ran::new(3, wanted, said));
}

#[test]
fn refused_files_say_why() {
    let scratch = Scratch::new();
    scratch.write("empty", "");
    scratch.write("zeros", [0; 227]);
    scratch.write("sheet.txt", SHEET);
    let wanted = "empty: not verified: refused 1: fewer than 227 bytes (length 0)
zeros: not verified: refused 2: signature is not \"LASF\" (it begins with \"\\x00\\x00\\x00\\x00\")
2 files: 0 verified, 2 not verified, 0 not read
";
    let ran = scratch.says("verify empty zeros sheet.txt");
    assert_eq!(ran, Ran::new(1, wanted, ""));
}

#[test]
fn a_sheet_that_does_not_pass_is_refused_before_the_files() {
    let (scratch, _) = shelf();
    scratch.write("kind.bin", [0x4B, 0x53, 7, 0, 0]);
    scratch.write("typo.txt", "class 2\nclass gruond\n");
    let refused = |sheet: &str, words: &str| {
        let ran = scratch.says(&format!("verify good.las none.las {sheet}"));
        assert_eq!((ran.status, &*ran.out), (Some(1), ""), "{sheet}");
        assert!(ran.err.starts_with(words), "{}", ran.err);
        assert_eq!(ran.err.lines().count(), 1);
    };
    refused("kind.bin", "kind.bin: refused 21: ");
    refused("typo.txt", "typo.txt:2:7: ");
    refused("leak.las", "leak.las: is a LAS file and no keep sheet");
    let ran = scratch.says("verify good.las none.txt");
    let said = "none.txt: No such file or directory\n";
    assert_eq!(ran, Ran::new(3, "", said));
}

#[test]
fn one_word_may_be_standard_input() {
    let (scratch, lines) = shelf();
    let run = |words: [&str; 3], given: &[u8]| {
        let mut command = scratch.command(words);
        command.stdin(Stdio::piped()).stdout(Stdio::piped());
        let mut child = command.spawn().unwrap();
        child.stdin.take().unwrap().write_all(given).unwrap();
        Ran::of(child.wait_with_output().unwrap())
    };
    let summary = "1 file: 1 verified, 0 not verified, 0 not read\n";
    let good = lines.lines().next().unwrap();
    let wanted = format!("{good}\n{summary}");
    let ran = run(["verify", "good.las", "-"], SHEET.as_bytes());
    assert_eq!(ran, Ran::new(0, &wanted, ""));
    let ran = run(["verify", "-", "sheet.txt"], &scratch.read("good.las"));
    let wanted = wanted.replace("good.las", "standard input");
    assert_eq!(ran, Ran::new(0, &wanted, ""));
    for words in ["verify - -", "verify - - sheet.txt", "verify - good.las -"] {
        let ran = scratch.says(words);
        let said = "korbishaf verify: only one of the words can be standard input\nusage: ";
        assert_eq!((ran.status, &*ran.out), (Some(2), ""));
        assert!(ran.err.starts_with(said), "{}", ran.err);
    }
    assert_eq!(scratch.says("verify good.las").status, Some(2));
}

#[test]
fn names_are_shown_so_that_no_terminal_minds() {
    let scratch = Scratch::new();
    let name = OsStr::from_bytes(b"\xFC\n\x1B.las");
    scratch.write(name, clean().bytes());
    scratch.write("sheet.txt", SHEET);
    let words = [OsStr::new("verify"), name, OsStr::new("sheet.txt")];
    let ran = scratch.run(words);
    assert!(
        ran.out.starts_with("\\xFC\\x0A\\x1B.las: verified ("),
        "{}",
        ran.out
    );
}

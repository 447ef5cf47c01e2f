//! `korbishaf sheet --class`, as a process.

mod common;

use common::{Ran, Scratch};
use std::io::Write;
use std::process::Stdio;

/// A sheet whose lines stand among comments and blank lines. Two of them are for building.
const TEXT: &str = "\
# what may be seen

record LASF_Projection 34735
class ground # as surveyed
  # vegetation
class 3-5

class building
class 5-6
";

/// The same five lines.
const BYTES: &[u8] = b"KS\x02LASF_Projection\0\xAF\x87KS\x01\x02\x02KS\x01\x03\x05\
                       KS\x01\x06\x06KS\x01\x05\x06";

/// Asserts what is printed for a class under a sheet, behind the class itself.
fn answers(sheet: impl AsRef<[u8]>, class: &str, words: &str) {
    let scratch = Scratch::new();
    scratch.write("sheet.txt", sheet);
    let ran = scratch.run(["sheet", "--class", class, "sheet.txt"]);
    assert_eq!(ran, Ran::new(0, &format!("class {words}\n"), ""));
    assert_eq!(scratch.names(), ["sheet.txt"]);
}

#[test]
fn the_first_line_that_has_the_class_answers() {
    let nine = "9 (water): kept by sheet.txt";
    for (text, line) in [
        ("class 9", ":1: class 9 (1 of 1 line looked at)"),
        ("class 9\nclass 2", ":1: class 9 (1 of 2 lines looked at)"),
        ("class 2\nclass 9", ":2: class 9 (2 of 2 lines looked at)"),
        (
            "class 2\nclass 8-10\nclass 9",
            ":2: class 8-10 (2 of 3 lines looked at)",
        ),
        (
            "record a 9\nrecord b 9\nclass water\nrecord c 9",
            ":3: class 9 (3 of 4 lines looked at)",
        ),
    ] {
        answers(text, "9", &format!("{nine}{line}"));
    }
}

#[test]
fn all_lines_are_looked_at_where_none_has_the_class() {
    for (text, looked_at) in [
        ("", "0 of 0 lines"),
        ("# class 9", "0 of 0 lines"),
        ("class 8", "1 of 1 line"),
        ("class 0-8\nrecord a 9\nclass 10-255", "3 of 3 lines"),
    ] {
        answers(
            text,
            "9",
            &format!("9 (water): not kept ({looked_at} looked at)"),
        );
    }
}

/// The place is that in the text, and the count that of the sheet's lines.
#[test]
fn comments_and_blank_lines_do_not_count() {
    for (class, words) in [
        ("2", "2 (ground): kept by sheet.txt:4: class 2 (2"),
        (
            "4",
            "4 (medium-vegetation): kept by sheet.txt:6: class 3-5 (3",
        ),
        (
            "5",
            "5 (high-vegetation): kept by sheet.txt:6: class 3-5 (3",
        ),
        ("6", "6 (building): kept by sheet.txt:8: class 6 (4"),
        ("7", "7 (low-point): not kept (5"),
    ] {
        answers(TEXT, class, &format!("{words} of 5 lines looked at)"));
    }
}

#[test]
fn a_sheet_of_64_lines() {
    let mut lines = vec!["class 2"; 64];
    answers(
        lines.join("\n"),
        "2",
        "2 (ground): kept by sheet.txt:1: class 2 (1 of 64 lines looked at)",
    );
    answers(
        lines.join("\n"),
        "3",
        "3 (low-vegetation): not kept (64 of 64 lines looked at)",
    );
    lines[63] = "class 3";
    let last = "3 (low-vegetation): kept by sheet.txt:64: class 3 (64 of 64 lines looked at)";
    answers(lines.join("\n"), "3", last);
}

#[test]
fn bytes_have_the_number_of_their_line() {
    let scratch = Scratch::new();
    scratch.write("sheet.bin", BYTES);
    let line =
        "class 6 (building): kept by line 4 of sheet.bin: class 6 (4 of 5 lines looked at)\n";
    assert_eq!(
        scratch.says("sheet sheet.bin --class 6"),
        Ran::new(0, line, "")
    );
    let line = "class 7 (low-point): not kept (5 of 5 lines looked at)\n";
    assert_eq!(
        scratch.says("sheet sheet.bin --class 7"),
        Ran::new(0, line, "")
    );
}

#[test]
fn a_dash_is_standard_input() {
    let scratch = Scratch::new();
    for (sheet, place) in [
        (TEXT.as_bytes(), "standard input:8"),
        (BYTES, "line 4 of standard input"),
    ] {
        let mut command = scratch.command(["sheet", "--class", "building", "-"]);
        command
            .stdin(Stdio::piped())
            .stdout(Stdio::piped())
            .stderr(Stdio::piped());
        let mut child = command.spawn().unwrap();
        child.stdin.take().unwrap().write_all(sheet).unwrap();
        let ran = Ran::of(child.wait_with_output().unwrap());
        let line =
            format!("class 6 (building): kept by {place}: class 6 (4 of 5 lines looked at)\n");
        assert_eq!(ran, Ran::new(0, &line, ""));
    }
}

#[test]
fn a_class_has_a_number_or_a_name() {
    let six = "6 (building): kept by sheet.txt:8: class 6 (4 of 5 lines looked at)";
    for class in ["6", "006", "building", "Building"] {
        answers(TEXT, class, six);
    }
    let eight = "8 (model-key-point): not kept (5 of 5 lines looked at)";
    for class in ["8", "model-key-point", "MODEL_KEY_POINT"] {
        answers(TEXT, class, eight);
    }
    answers(
        TEXT,
        "10",
        "10 (reserved): not kept (5 of 5 lines looked at)",
    );
    let scratch = Scratch::new();
    scratch.write("sheet.txt", TEXT);
    let ran = Ran::new(0, &format!("class {six}\n"), "");
    assert_eq!(scratch.says("sheet --class=building -- sheet.txt"), ran);
}

/// A class above 31 is no byte with flags in it, and no point of the formats 0 to 3 has it.
#[test]
fn a_class_above_31_has_no_points() {
    let hint = "; in point formats 0 to 3 no point has this class";
    for (class, words) in [
        (
            "31",
            "31 (reserved): kept by sheet.txt:2: class 20-200 (2 of 3 lines looked at)".into(),
        ),
        (
            "32",
            format!("32: kept by sheet.txt:2: class 20-200 (2 of 3 lines looked at){hint}"),
        ),
        (
            "66",
            format!("66: kept by sheet.txt:2: class 20-200 (2 of 3 lines looked at){hint}"),
        ),
        (
            "255",
            format!("255: kept by sheet.txt:3: class 255 (3 of 3 lines looked at){hint}"),
        ),
        ("201", "201: not kept (3 of 3 lines looked at)".into()),
    ] {
        answers("class 2\nclass 20-200\nclass 255", class, &words);
    }
}

/// The whole sheet is checked before a class is looked for.
#[test]
fn a_fault_behind_the_line_that_answers_is_refused() {
    let scratch = Scratch::new();
    for (sheet, said) in [
        (
            &b"class 2\nclass 5-3"[..],
            "sheet:2:7: expected the lowest class before the highest, '3-5', found '5-3'\n",
        ),
        (
            b"KS\x01\x02\x02KS\x01\x05\x03",
            "sheet: refused 23: a line of the sheet has its lowest class above its highest, \
             or a low value of its box above the high one (line 2 at byte 5: classes 5 to 3)\n",
        ),
        (
            b"KS\x01\x02\x02KS",
            "sheet: refused 22: a line of the sheet is cut short (line 2 at byte 5: 2 bytes left)\n",
        ),
    ] {
        scratch.write("sheet", sheet);
        for class in ["2", "3"] {
            let ran = scratch.run(["sheet", "--class", class, "sheet"]);
            assert_eq!(ran, Ran::new(1, "", said));
        }
    }
    let none = Ran::new(3, "", "none.txt: No such file or directory\n");
    assert_eq!(scratch.says("sheet --class 2 none.txt"), none);
}

/// Words that are no class, or that do not go together. The sheet is not looked at.
#[test]
fn wrong_usage() {
    let no_class = "expected a class from 0 to 255 or a class name, found ";
    let alone = "'--class' writes no file, and takes no '-o' and no '--force'";
    for (words, said) in [
        (&["--class", "256"][..], format!("{no_class}'256'")),
        (&["--class", "-1"], format!("{no_class}'-1'")),
        (&["--class", "+1"], format!("{no_class}'+1'")),
        (&["--class", ""], format!("{no_class}nothing")),
        (&["--class="], format!("{no_class}nothing")),
        (&["--class", "3-5"], format!("{no_class}'3-5'")),
        (
            &["--class", "gruond"],
            format!("{no_class}'gruond'; did you mean 'ground'?"),
        ),
        (&["--class", "\x1B"], format!("{no_class}'\\x1B'")),
        (
            &["--class", "2", "--class=2"],
            "'--class' stands there twice".into(),
        ),
        (&["--class", "2", "-o", "sheet.bin"], alone.into()),
        (&["--class", "2", "--force"], alone.into()),
    ] {
        let scratch = Scratch::new();
        let ran = scratch.run([&["sheet", "none.txt"], words].concat());
        let usage = "usage: korbishaf sheet [--force] [-o FILE] [--class CLASS] SHEET";
        let said = format!("korbishaf sheet: {said}\n{usage} ('korbishaf help sheet' says more)\n");
        assert_eq!(ran, Ran::new(2, "", &said));
        assert_eq!(scratch.names(), [""; 0]);
    }
    let ran = Scratch::new().says("show --class 2 in.las");
    assert_eq!(ran.status, Some(2));
    assert!(
        ran.err
            .starts_with("korbishaf show: unknown option '--class'"),
        "{}",
        ran.err
    );
}

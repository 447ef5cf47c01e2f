//! `korbishaf sheet`, as a process.

mod common;

use common::{Ran, Scratch};
use compare::rng::{Rng, seeds};
use compare::spec::{LineSpec, SheetSpec};
use std::io::Write;
use std::process::Stdio;

const TEXT: &str = "\
# ground, vegetation and water, and where they are
class ground
class 3-5 # from the lowest to the highest
record LASF_Projection 34735

record \"my \\\"own\\\" \\xFC\" 7
";

const LINES: &str =
    "class 2\nclass 3-5\nrecord LASF_Projection 34735\nrecord \"my \\\"own\\\" \\xFC\" 7\n";

const BYTES: &[u8] = b"KS\x01\x02\x02KS\x01\x03\x05KS\x02LASF_Projection\0\xAF\x87\
                       KS\x02my \"own\" \xFC\0\0\0\0\0\0\x07\0";

#[test]
fn text_to_bytes_to_text() {
    let scratch = Scratch::new();
    scratch.write("sheet.txt", TEXT);
    assert_eq!(scratch.says("sheet sheet.txt"), Ran::new(0, LINES, ""));
    assert_eq!(
        scratch.says("sheet sheet.txt -o sheet.bin"),
        Ran::new(0, "", "")
    );
    assert_eq!(scratch.read("sheet.bin"), BYTES);
    assert_eq!(scratch.says("sheet sheet.bin"), Ran::new(0, LINES, ""));
    assert_eq!(
        scratch.says("sheet sheet.bin --output=again.bin"),
        Ran::new(0, "", "")
    );
    assert_eq!(scratch.read("again.bin"), BYTES);
    assert_eq!(scratch.names(), ["again.bin", "sheet.bin", "sheet.txt"]);
}

#[test]
fn nothing_is_replaced_without_force() {
    let scratch = Scratch::new();
    scratch.write("sheet.txt", TEXT);
    scratch.write("sheet.bin", "older");
    let exists = Ran::new(2, "", "sheet.bin: exists already; --force replaces it\n");
    assert_eq!(scratch.says("sheet sheet.txt -o sheet.bin"), exists);
    assert_eq!(scratch.read("sheet.bin"), b"older");
    let same = Ran::new(2, "", "sheet.txt and sheet.txt are one file\n");
    assert_eq!(scratch.says("sheet -f sheet.txt -o sheet.txt"), same);
    assert_eq!(
        scratch.says("sheet -f sheet.txt -o sheet.bin"),
        Ran::new(0, "", "")
    );
    assert_eq!(scratch.read("sheet.bin"), BYTES);
}

#[test]
fn a_dash_is_standard_input_or_output() {
    let scratch = Scratch::new();
    let mut command = scratch.command(["sheet", "-", "-o", "-"]);
    command.stdin(Stdio::piped()).stdout(Stdio::piped());
    let mut child = command.spawn().unwrap();
    child
        .stdin
        .take()
        .unwrap()
        .write_all(TEXT.as_bytes())
        .unwrap();
    let output = child.wait_with_output().unwrap();
    assert_eq!(
        (output.status.code(), output.stdout),
        (Some(0), BYTES.to_vec())
    );
}

#[test]
fn mistakes_have_file_line_and_column() {
    let scratch = Scratch::new();
    for (text, said) in [
        (
            "clas 2",
            ":1:1: expected 'class', 'record' or 'box', found 'clas'; did you mean 'class'?",
        ),
        (
            "\n  class 5-3",
            ":2:9: expected the lowest class before the highest, '3-5', found '5-3'",
        ),
        (
            "record yard",
            ":1:12: expected a record ID from 0 to 65535 behind the user ID, found nothing",
        ),
    ] {
        scratch.write("sheet.txt", text);
        let wanted = Ran::new(1, "", &format!("sheet.txt{said}\n"));
        assert_eq!(scratch.says("sheet sheet.txt"), wanted);
        assert_eq!(scratch.says("sheet sheet.txt -o sheet.bin"), wanted);
    }
    scratch.write("wrong.bin", b"KS\x01\x03\x02");
    let words = "a line of the sheet has its lowest class above its highest, \
                 or a low value of its box above the high one";
    let wanted = format!("wrong.bin: refused 23: {words} (line 1 at byte 0: classes 3 to 2)\n");
    assert_eq!(scratch.says("sheet wrong.bin"), Ran::new(1, "", &wanted));
    let none = Ran::new(3, "", "none.txt: No such file or directory\n");
    assert_eq!(scratch.says("sheet none.txt"), none);
    assert_eq!(scratch.names(), ["sheet.txt", "wrong.bin"]);
}

/// The boxes of a sheet that passes, as its description has them.
fn boxes(sheet: &[u8]) -> Vec<LineSpec> {
    let mut lines = SheetSpec::of_passing(sheet).lines;
    lines.retain(|line| matches!(line, LineSpec::Box(_)));
    lines
}

/// Any sheet that passes, printed, compiled and printed again: the same lines, and it keeps the same.
#[test]
fn bytes_to_text_to_bytes() {
    let scratch = Scratch::new();
    for seed in seeds() {
        let mut rng = Rng::new(seed);
        for _ in 0..50 {
            let sheet = SheetSpec::random(&mut rng).bytes();
            scratch.write("sheet.bin", &sheet);
            let text = scratch.says("sheet sheet.bin");
            assert_eq!((text.status, text.err.as_str()), (Some(0), ""));
            scratch.write("sheet.txt", &text.out);
            assert_eq!(scratch.says("sheet sheet.txt"), text);
            assert_eq!(
                scratch.says("sheet -f sheet.txt -o again.bin"),
                Ran::new(0, "", "")
            );
            let again = scratch.read("again.bin");
            assert_eq!(again.len(), sheet.len());
            for class in 0..=255 {
                let kept = |sheet: &[u8]| las_plain::class_kept(sheet, class);
                assert_eq!(kept(&again), kept(&sheet));
            }
            assert_eq!(boxes(&again), boxes(&sheet));
        }
    }
}

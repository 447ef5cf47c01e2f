//! `korbishaf release`, as a process: what it writes, and where it refuses to.

mod common;

use common::{Ran, Scratch};
use compare::damage::damage;
use compare::rng::{Rng, seeds};
use compare::spec::{FileSpec, SheetSpec};
use std::ffi::OsStr;
use std::fs;
use std::fs::Permissions;
use std::io::Write;
use std::os::unix::ffi::OsStrExt;
use std::os::unix::fs::{PermissionsExt, symlink};
use std::process::{Command, Stdio};

const LINE: &str = "released 557 points 9 records 1\n";

/// The card's files and `out.las`, and nothing else.
const NAMES: [&str; 5] = ["expected.las", "in.las", "line", "out.las", "sheet.bin"];

fn yard() -> Scratch {
    Scratch::with_card("yard")
}

#[test]
fn the_cards_are_released() {
    for card in ["yard", "survey"] {
        let scratch = Scratch::with_card(card);
        let line = String::from_utf8(scratch.read("line")).unwrap();
        assert_eq!(
            scratch.says("release in.las sheet.bin out.las"),
            Ran::new(0, &line, "")
        );
        assert_eq!(scratch.read("out.las"), scratch.read("expected.las"));
        assert_eq!(scratch.names(), NAMES);
    }
}

#[test]
fn nothing_is_replaced_without_force() {
    let scratch = yard();
    scratch.write("out.las", "older");
    let wanted = Ran::new(2, "", "out.las: exists already; --force replaces it\n");
    assert_eq!(scratch.says("release in.las sheet.bin out.las"), wanted);
    assert_eq!(scratch.read("out.las"), b"older");
    fs::set_permissions(scratch.path("out.las"), Permissions::from_mode(0o4600)).unwrap();
    assert_eq!(
        scratch.says("release in.las sheet.bin out.las --force"),
        Ran::new(0, LINE, "")
    );
    assert_eq!(scratch.read("out.las"), scratch.read("expected.las"));
    let kept = fs::metadata(scratch.path("out.las")).unwrap().permissions();
    assert_eq!(kept.mode() & 0o7777, 0o600);
    assert_eq!(scratch.names(), NAMES);
}

#[test]
fn input_and_output_are_two_files() {
    let scratch = yard();
    symlink("in.las", scratch.path("link.las")).unwrap();
    symlink("sheet.bin", scratch.path("link.bin")).unwrap();
    fs::hard_link(scratch.path("in.las"), scratch.path("hard.las")).unwrap();
    let before = scratch.read("in.las");
    for (words, same) in [
        ("in.las sheet.bin in.las", "in.las and in.las"),
        ("in.las sheet.bin ./in.las", "in.las and ./in.las"),
        ("in.las sheet.bin link.las", "in.las and link.las"),
        ("link.las sheet.bin in.las", "link.las and in.las"),
        ("in.las sheet.bin hard.las", "in.las and hard.las"),
        ("in.las sheet.bin sheet.bin", "sheet.bin and sheet.bin"),
        ("in.las sheet.bin link.bin", "sheet.bin and link.bin"),
    ] {
        let wanted = Ran::new(2, "", &format!("{same} are one file\n"));
        assert_eq!(scratch.says(&format!("release {words}")), wanted);
        assert_eq!(scratch.says(&format!("release --force {words}")), wanted);
    }
    let mut command = scratch.command(["release", "-f", "-", "sheet.bin", "in.las"]);
    command.stdin(fs::File::open(scratch.path("in.las")).unwrap());
    let wanted = Ran::new(2, "", "standard input and in.las are one file\n");
    assert_eq!(Ran::of(command.output().unwrap()), wanted);
    assert_eq!(scratch.read("in.las"), before);
}

#[test]
fn a_link_stays_and_what_it_leads_to_is_replaced() {
    let scratch = yard();
    fs::create_dir(scratch.path("folder")).unwrap();
    scratch.write("folder/real.las", "older");
    symlink("folder/real.las", scratch.path("out.las")).unwrap();
    assert_eq!(
        scratch.says("release in.las sheet.bin out.las").status,
        Some(2)
    );
    assert_eq!(
        scratch.says("release -f in.las sheet.bin out.las"),
        Ran::new(0, LINE, "")
    );
    assert!(scratch.path("out.las").is_symlink());
    assert_eq!(
        scratch.read("folder/real.las"),
        scratch.read("expected.las")
    );
}

#[test]
fn what_is_no_file_is_no_output() {
    let scratch = yard();
    fs::create_dir(scratch.path("folder")).unwrap();
    symlink("nowhere", scratch.path("dangling")).unwrap();
    for (out, status, words) in [
        ("folder", 2, "folder: is a folder"),
        ("folder/", 2, "'folder/': no file can have that name"),
        ("new/", 2, "'new/': no file can have that name"),
        ("", 2, "'': no file can have that name"),
        (
            "/dev/null",
            2,
            "/dev/null: is no plain file; '-' writes to standard output",
        ),
        (
            "/dev/stdout",
            2,
            "/dev/stdout: is no plain file; '-' writes to standard output",
        ),
        ("dangling", 2, "dangling: is a link that leads nowhere"),
        (
            "none/out.las",
            3,
            "none/out.las: its folder: No such file or directory",
        ),
        ("in.las/out.las", 3, "in.las/out.las: Not a directory"),
    ] {
        let ran = scratch.run(["release", "-f", "in.las", "sheet.bin", out]);
        assert_eq!(ran, Ran::new(status, "", &format!("{words}\n")));
    }
    assert_eq!(scratch.names().len(), 6);
}

/// The line would be lost in the file that the release replaces.
#[test]
fn standard_output_is_no_output_by_another_name() {
    let scratch = yard();
    for out in ["so", "/dev/stdout"] {
        let mut command = scratch.command(["release", "-f", "in.las", "sheet.bin", out]);
        command.stdout(fs::File::create(scratch.path("so")).unwrap());
        let words = format!("{out}: is standard output; '-' writes there\n");
        assert_eq!(Ran::of(command.output().unwrap()), Ran::new(2, "", &words));
    }
}

/// A closed input is not an empty one.
#[test]
fn a_closed_standard_input_is_said() {
    let scratch = yard();
    for words in [
        "release - sheet.bin out.las",
        "release in.las - out.las",
        "show -",
    ] {
        let mut command = Command::new("sh");
        let script = format!("exec \"$0\" {words} <&-");
        command
            .args(["-c", &script, env!("CARGO_BIN_EXE_korbishaf")])
            .current_dir(scratch.path(""));
        let ran = Ran::of(command.output().unwrap());
        assert_eq!(
            ran,
            Ran::new(3, "", "standard input: it is closed\n"),
            "{words}"
        );
    }
    assert!(!scratch.path("out.las").exists());
}

#[test]
fn what_cannot_be_read_is_said() {
    let scratch = yard();
    fs::create_dir(scratch.path("folder")).unwrap();
    for (words, said) in [
        (
            "none.las sheet.bin out.las",
            "none.las: No such file or directory",
        ),
        (
            "in.las none.bin out.las",
            "none.bin: No such file or directory",
        ),
        ("folder sheet.bin out.las", "folder: Is a directory"),
        ("in.las folder out.las", "folder: Is a directory"),
    ] {
        let ran = scratch.says(&format!("release {words}"));
        assert_eq!(ran, Ran::new(3, "", &format!("{said}\n")));
    }
    assert!(!scratch.path("out.las").exists());
}

#[test]
fn sheets_are_bytes_or_texts() {
    let scratch = yard();
    scratch.write(
        "sheet.txt",
        "class ground # and buildings\nclass 6\nrecord yard 7\n",
    );
    assert_eq!(
        scratch.says("release in.las sheet.txt out.las"),
        Ran::new(0, LINE, "")
    );
    assert_eq!(scratch.read("out.las"), scratch.read("expected.las"));
    scratch.write("empty", "");
    let ran = scratch.says("release -f in.las empty out.las");
    assert_eq!(ran, Ran::new(0, "released 227 points 0 records 0\n", ""));
    scratch.write("wrong.txt", "class 2\nclass gruond\n");
    let ran = scratch.says("release -f in.las wrong.txt out.las");
    let words = "expected a class from 0 to 255, 'lowest-highest' or a class name, found 'gruond'; \
                 did you mean 'ground'?";
    assert_eq!(ran, Ran::new(1, "", &format!("wrong.txt:2:7: {words}\n")));
    let ran = scratch.says("release -f sheet.bin in.las out.las");
    assert_eq!(
        ran,
        Ran::new(1, "", "in.las: is a LAS file and no keep sheet\n")
    );
    assert_eq!(scratch.read("out.las").len(), 227);
}

#[test]
fn a_dash_is_standard_input_or_output() {
    let scratch = yard();
    let expected = scratch.read("expected.las");
    let feed = |name: &str, words: &str| {
        let mut command = scratch.command(words.split(' '));
        command
            .stdin(Stdio::piped())
            .stdout(Stdio::piped())
            .stderr(Stdio::piped());
        let mut child = command.spawn().unwrap();
        child
            .stdin
            .take()
            .unwrap()
            .write_all(&scratch.read(name))
            .unwrap();
        child.wait_with_output().unwrap()
    };
    let ran = Ran::of(feed("in.las", "release - sheet.bin out.las"));
    assert_eq!(ran, Ran::new(0, LINE, ""));
    assert_eq!(scratch.read("out.las"), expected);
    let ran = Ran::of(feed("sheet.bin", "release --force in.las - out.las"));
    assert_eq!(ran, Ran::new(0, LINE, ""));
    let output = feed("in.las", "release - sheet.bin -");
    assert_eq!(
        (output.status.code(), output.stdout),
        (Some(0), expected.clone())
    );
    assert_eq!(output.stderr, LINE.as_bytes());
    let output = feed("in.las", "release -q - sheet.bin -");
    assert_eq!(
        (output.status.code(), output.stdout, output.stderr),
        (Some(0), expected, vec![])
    );
    scratch.write("cut.las", &scratch.read("in.las")[..100]);
    let words = "standard input: refused 1: fewer than 227 bytes (length 100)\n";
    assert_eq!(
        Ran::of(feed("cut.las", "release - sheet.bin -")),
        Ran::new(1, "", words)
    );
    let words = scratch.says("release - - out").err;
    assert!(words.starts_with("korbishaf release: only one of the words can be standard input\n"));
}

#[test]
fn names_are_any_bytes() {
    let scratch = yard();
    let [file, out] = [&b"\xFF in\n.las"[..], b"-o\x1B[2J.las"].map(OsStr::from_bytes);
    fs::rename(scratch.path("in.las"), scratch.path(file)).unwrap();
    let words = [
        OsStr::new("release"),
        file,
        OsStr::new("sheet.bin"),
        OsStr::new("--"),
        out,
    ];
    assert_eq!(scratch.run(words), Ran::new(0, LINE, ""));
    assert_eq!(scratch.read(out), scratch.read("expected.las"));
    let wanted = Ran::new(
        2,
        "",
        "-o\\x1B[2J.las: exists already; --force replaces it\n",
    );
    assert_eq!(scratch.run(words), wanted);
    let long = "n".repeat(255);
    let words = [
        OsStr::new("release"),
        file,
        OsStr::new("sheet.bin"),
        OsStr::new(&long),
    ];
    assert_eq!(scratch.run(words), Ran::new(0, LINE, ""));
}

/// Sound and damaged files and sheets: what las_plain answers decides, every byte of it.
#[test]
fn las_plain_gives_the_same() {
    let scratch = Scratch::new();
    let mut accepted = 0;
    for seed in seeds() {
        let mut rng = Rng::new(seed);
        for _ in 0..200 {
            let spec = FileSpec::random(&mut rng);
            let mut sheet = SheetSpec::random_for(&mut rng, &spec).bytes();
            let mut file = spec.bytes();
            if rng.chance(40) {
                damage(&mut rng, &mut file);
            }
            if rng.chance(20) && !sheet.is_empty() {
                // the mark stays, since other bytes would be a text
                let place = rng.from_to(2, sheet.len() - 1);
                sheet[place] = rng.byte();
            }
            scratch.write("in.las", &file);
            scratch.write("sheet.bin", &sheet);
            let _ = fs::remove_file(scratch.path("out.las"));
            let ran = scratch.says("release in.las sheet.bin out.las");
            let mut out = vec![0; file.len()];
            match las_plain::release(&file, &sheet, &mut out) {
                Ok(released) => {
                    let numbers = (released.length, released.points, released.records);
                    let line = format!(
                        "released {} points {} records {}\n",
                        numbers.0, numbers.1, numbers.2
                    );
                    assert_eq!(ran, Ran::new(0, &line, ""));
                    out.truncate(released.length as usize);
                    assert_eq!(scratch.read("out.las"), out);
                    accepted += 1;
                }
                Err(refused) => {
                    let line = format!("refused {}\n", refused.number());
                    assert_eq!((ran.status, ran.out), (Some(1), line));
                    assert!(!scratch.path("out.las").exists());
                }
            }
        }
    }
    assert!((100..=360).contains(&accepted), "{accepted}");
}

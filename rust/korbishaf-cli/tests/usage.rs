//! Help, explanations and wrong usage.

mod common;

use common::scan::record;
use common::{Ran, Scratch};
use compare::spec::FileSpec;
use std::io::Read;
use std::process::{Command, Stdio};

fn says(words: &str) -> Ran {
    Scratch::new().says(words)
}

/// The names of the commands, as the help lists them.
fn commands() -> Vec<String> {
    let help = says("help").out;
    let list = help
        .split("Commands:\n")
        .nth(1)
        .unwrap()
        .split("\n\n")
        .next()
        .unwrap();
    let names = list
        .lines()
        .map(|line| line.split_whitespace().next().unwrap());
    names.map(String::from).collect()
}

#[test]
fn the_help_lists_every_command() {
    let all = [
        "release", "report", "list", "show", "geokey", "mend", "sheet", "verify", "explain", "help",
    ];
    assert_eq!(commands(), all);
    for words in ["help", "--help", "-h"] {
        let ran = says(words);
        assert_eq!((ran.status, ran.err.as_str()), (Some(0), ""));
        assert!(
            ran.out
                .starts_with("korbishaf cuts a sample out of a LAS 1.2 scan")
        );
    }
    let ran = says("");
    assert_eq!((ran.status, ran.out), (Some(2), String::new()));
    let wanted = format!("korbishaf: expected a command\n\n{}", says("help").out);
    assert_eq!(ran.err, wanted);
}

#[test]
fn every_command_has_a_page() {
    for name in commands() {
        let page = says(&format!("help {name}"));
        assert_eq!((page.status, page.err.as_str()), (Some(0), ""));
        assert!(page.out.starts_with(&format!("usage: korbishaf {name}")));
        assert_eq!(says(&format!("{name} --help")), page);
        assert_eq!(says(&format!("{name} a b c d e -h")), page);
        for line in page.out.lines() {
            assert!(line.chars().count() <= 105, "{line}");
        }
    }
}

#[test]
fn every_command_refuses_unknown_options() {
    for name in commands() {
        for option in ["--nonsense", "-x", "--force=yes", "--quiet=", "-\x1B"] {
            let ran = Scratch::new().run([&name, "a", option]);
            assert_eq!(
                (ran.status, ran.out.as_str()),
                (Some(2), ""),
                "{name} {option}"
            );
            let start = format!(
                "korbishaf {name}: unknown option '{}'",
                option.replace('\x1B', "\\x1B")
            );
            assert!(ran.err.starts_with(&start), "{}", ran.err);
            assert!(
                ran.err
                    .ends_with(&format!("('korbishaf help {name}' says more)\n"))
            );
        }
    }
}

#[test]
fn words_that_are_missing_or_too_many_are_wrong_usage() {
    for words in [
        "release",
        "release a",
        "release a b",
        "release a b c d",
        "report",
        "report a",
        "report a b c",
        "list",
        "list a",
        "list a b c",
        "show",
        "show a b",
        "geokey",
        "geokey a",
        "geokey a 1024 2048",
        "mend",
        "mend a",
        "mend a b c",
        "sheet",
        "sheet a b",
        "sheet a -o",
        "sheet a --class",
        "sheet --class 2",
        "verify",
        "verify a",
        "explain 1 2",
        "help a b",
    ] {
        let ran = says(words);
        assert_eq!((ran.status, ran.out.as_str()), (Some(2), ""), "{words}");
        let name = words.split(' ').next().unwrap();
        let usage = ran.err.lines().nth(1).unwrap();
        assert!(
            usage.starts_with(&format!("usage: korbishaf {name}")),
            "{words}: {}",
            ran.err
        );
    }
    let ran = says("relaese a b c");
    let all = "release, report, list, show, geokey, mend, sheet, verify, explain, help";
    let words = format!("korbishaf: unknown command 'relaese'; the commands are {all}\n");
    assert_eq!(ran, Ran::new(2, "", &words));
    assert_eq!(says("help relaese"), Ran::new(2, "", &words));
}

#[test]
fn the_version() {
    let version = concat!("korbishaf ", env!("CARGO_PKG_VERSION"), " (level 7)\n");
    assert_eq!(says("--version"), Ran::new(0, version, ""));
    assert_eq!(says("-V"), Ran::new(0, version, ""));
    for option in ["--version", "--help"] {
        let words = format!("korbishaf {option}: expected nothing behind it, found 'more'\n");
        assert_eq!(says(&format!("{option} more")), Ran::new(2, "", &words));
    }
}

/// The numbers of the specification.
const NUMBERS: [u64; 30] = [
    1, 2, 3, 4, 5, 6, 7, 8, 9, 10, 11, 12, 13, 18, 20, 21, 22, 23, 24, 30, 31, 40, 41, 42, 43, 44,
    45, 46, 50, 51,
];

#[test]
fn every_number_is_explained() {
    let list = says("explain");
    assert_eq!((list.status, list.err.as_str()), (Some(0), ""));
    let listed: Vec<u64> = list
        .out
        .lines()
        .map(|line| line.split_whitespace().next().unwrap().parse().unwrap())
        .collect();
    assert_eq!(listed, NUMBERS);
    for number in NUMBERS {
        let ran = says(&format!("explain {number}"));
        assert_eq!((ran.status, ran.err.as_str()), (Some(0), ""));
        let lines: Vec<&str> = ran.out.lines().collect();
        let words = korbishaf::refusal_words(number).unwrap();
        assert_eq!(lines[0], format!("refused {number}: {words}"));
        assert!(
            lines.len() == 2 && lines[1].ends_with(['.', '?']),
            "{}",
            ran.out
        );
    }
}

#[test]
fn some_explanations_word_by_word() {
    let seven = "refused 7: point offset below the header size or above the file's length\n\
                 The header is damaged, or the file was cut short before its points.\n";
    assert_eq!(says("explain 7").out, seven);
    let thirteen = "refused 13: a return number, a number of returns or a class is too large to encode\n\
                    Return numbers go up to 7, and classes up to 31. Only calls of the library give this number.\n";
    assert_eq!(says("explain 13").out, thirteen);
    let thirty_one = "refused 31: the list is shorter than the kept records and points together\n\
                      Only calls of the library give this number: lend as many lines as the file has \
                      records and points.\n";
    assert_eq!(says("explain 31").out, thirty_one);
    let twenty_three = "refused 23: a line of the sheet has its lowest class above its highest, \
                        or a low value of its box above the high one\n\
                        A line of kind 1 has the lowest class first, one of kind 3 the low value before the \
                        high one on each axis.\n";
    assert_eq!(says("explain 23").out, twenty_three);
    for (number, words) in [(21, "lines of kind 3 are boxes"), (22, "kind 3 has 27")] {
        let ran = says(&format!("explain {number}"));
        assert!(ran.out.contains(words), "{}", ran.out);
    }
    assert!(says("explain 9").out.contains("'korbishaf mend'"));
    assert!(says("explain 42").out.contains("'korbishaf show'"));
}

#[test]
fn what_is_no_number_is_not_explained() {
    for word in [
        "0",
        "14",
        "99",
        "-1",
        "seven",
        "18446744073709551616",
        "7.0",
        "",
    ] {
        let ran = Scratch::new().run(["explain", "--", word]);
        let words = "expected a number from 1 to 13, 18, 20 to 24, 30, 31, 40 to 46, 50 or 51";
        assert_eq!((ran.status, ran.out.as_str()), (Some(2), ""));
        assert!(
            ran.err
                .starts_with(&format!("korbishaf explain: {words}, found '{word}'\n"))
        );
    }
}

/// What prints, in each command.
const PRINTING: [&str; 16] = [
    "help",
    "--version",
    "explain",
    "explain 7",
    "show in.las",
    "show --json in.las",
    "geokey survey.las 1024",
    "geokey --json survey.las 1024",
    "sheet sheet.bin",
    "sheet --class 2 sheet.bin",
    "report in.las sheet.bin",
    "report --json in.las sheet.bin",
    "list in.las sheet.bin",
    "list --json in.las sheet.bin",
    "verify expected.las sheet.bin",
    "verify in.las sheet.bin",
];

/// The same, by a shell that does something before, or behind the words.
fn by_shell(scratch: &Scratch, before: &str, words: &str, behind: &str) -> Ran {
    let mut command = Command::new("sh");
    let script = format!("{before} exec \"$0\" {words} {behind}");
    command.args(["-c", &script, env!("CARGO_BIN_EXE_korbishaf")]);
    Ran::of(command.current_dir(scratch.path("")).output().unwrap())
}

/// Each command that prints, into a full output, a closed pipe, a closed output and a file that may not grow: words and
/// status 3, no panic and no signal.
#[test]
fn what_is_not_printed_is_said() {
    let scratch = Scratch::with_card("yard");
    scratch.write("survey.las", Scratch::with_card("survey").read("in.las"));
    for words in PRINTING {
        let full = std::fs::File::create("/dev/full").unwrap();
        let ran = Ran::of(
            scratch
                .command(words.split(' '))
                .stdout(full)
                .output()
                .unwrap(),
        );
        assert_eq!(
            ran,
            Ran::new(3, "", "standard output: No space left on device\n"),
            "{words}"
        );
        let (reader, writer) = std::io::pipe().unwrap();
        drop(reader);
        let ran = Ran::of(
            scratch
                .command(words.split(' '))
                .stdout(writer)
                .output()
                .unwrap(),
        );
        assert_eq!(
            ran,
            Ran::new(3, "", "standard output: Broken pipe\n"),
            "{words}"
        );
        let ran = by_shell(&scratch, "", words, ">&-");
        assert_eq!(
            ran,
            Ran::new(3, "", "standard output: it is closed\n"),
            "{words}"
        );
        let ran = by_shell(&scratch, "ulimit -f 0;", words, ">file");
        assert_eq!(
            ran,
            Ran::new(3, "", "standard output: File too large\n"),
            "{words}"
        );
    }
}

/// What is written piece by piece may find that nobody reads any more when much of it was read already.
#[test]
fn a_reader_that_goes_away_is_said() {
    let scratch = Scratch::new();
    let mut file = FileSpec::bare(0);
    file.records = vec![record(b"yard", 7, 0); 20_000];
    scratch.write("in.las", file.bytes());
    scratch.write("sheet.txt", "record yard 7");
    for words in [
        "show in.las",
        "show --json in.las",
        "report in.las sheet.txt",
        "report --json in.las sheet.txt",
        "list in.las sheet.txt",
        "list --json in.las sheet.txt",
    ] {
        let (mut reader, writer) = std::io::pipe().unwrap();
        let mut command = scratch.command(words.split(' '));
        let child = command
            .stdout(writer)
            .stderr(Stdio::piped())
            .spawn()
            .unwrap();
        reader.read_exact(&mut [0; 100_000]).unwrap();
        drop(reader);
        let ran = Ran::of(child.wait_with_output().unwrap());
        assert_eq!(
            ran,
            Ran::new(3, "", "standard output: Broken pipe\n"),
            "{words}"
        );
    }
}

//! `korbishaf list`, as a process.

mod common;

use common::json;
use common::scan::{of_classes, point, record};
use common::{Ran, Scratch};
use compare::damage::spoil;
use compare::spec::FileSpec;
use std::fs::File;

/// A folder with the files `in.las` and `sheet.txt`.
fn with_files(file: &[u8], sheet: impl AsRef<[u8]>) -> Scratch {
    let scratch = Scratch::new();
    scratch.write("in.las", file);
    scratch.write("sheet.txt", sheet);
    scratch
}

/// What stands above the lines.
const FIRST: &str = "in.las under sheet.txt: the parts that go out; not to be handed on\n";

/// Asserts what is printed for a file under a sheet, below the first line.
fn lists(file: &FileSpec, sheet: &str, options: &str, lines: &str) {
    let scratch = with_files(&file.bytes(), sheet);
    let ran = scratch.says(&format!("list {options} in.las sheet.txt"));
    assert_eq!(ran, Ran::new(0, &format!("{FIRST}{lines}"), ""), "{sheet}");
    assert_eq!(scratch.names(), ["in.las", "sheet.txt"]);
}

#[test]
fn the_cards_are_listed_and_nothing_is_written() {
    for (card, text, json) in [
        (
            "yard",
            include_str!("expected/list-yard.txt"),
            include_str!("expected/list-yard.json"),
        ),
        (
            "survey",
            include_str!("expected/list-survey.txt"),
            include_str!("expected/list-survey.json"),
        ),
    ] {
        let scratch = Scratch::with_card(card);
        let names = scratch.names();
        let ran = scratch.says("list in.las sheet.bin");
        assert_eq!(ran, Ran::new(0, text, ""));
        let ran = scratch.says("list --json --quiet in.las sheet.bin");
        assert_eq!(ran, Ran::new(0, json, ""));
        assert!(json::read(json).is_some());
        assert_eq!(scratch.names(), names);
    }
}

#[test]
fn points_side_by_side_have_one_line_with_runs() {
    let yard = "  place  length
    362      24  record 2, \"yard\" 7
    464      28  point 1
    520      84  points 3 to 5
    632      84  points 7 to 9
    744      56  points 11 to 12
10 parts: 1 record, 9 points, 276 bytes
";
    let survey = "  place  length
    352      32  record 2, \"LASF_Projection\" 34735
    508       8  record 4, \"LASF_Projection\" 34736
    574      40  point 1
    654      40  point 3
    734      80  points 5 to 6
    854      40  point 8
7 parts: 2 records, 5 points, 240 bytes
";
    for (card, lines) in [("yard", yard), ("survey", survey)] {
        let scratch = Scratch::with_card(card);
        let first = FIRST.replace("sheet.txt", "sheet.bin");
        let wanted = Ran::new(0, &format!("{first}{lines}"), "");
        assert_eq!(scratch.says("list --runs in.las sheet.bin"), wanted);
        assert_eq!(scratch.says("list in.las sheet.bin --runs"), wanted);
    }
    let ran = Scratch::with_card("yard").says("list --runs --json in.las sheet.bin");
    let json = json::read(&ran.out).expect("JSON");
    assert_eq!(json.at("lines").list().len(), 5);
    for (path, wanted) in [
        ("points", 9),
        ("lines/2/place", 520),
        ("lines/2/length", 84),
        ("lines/2/first_point", 3),
        ("lines/2/points", 3),
    ] {
        assert_eq!(json.at(path).number(), wanted, "{path}");
    }
}

/// Three records behind a header of 227 bytes, two of them without payloads, and points directly behind these. The
/// payload of the third record is where the first point is.
fn with_records() -> FileSpec {
    let mut file = of_classes(&[2, 2, 6]);
    file.records = vec![
        record(b"yard", 7, 3),
        record(b"\x1B[2J\\ \xFC", 65535, 0),
        record(b"yard   ", 7, 0),
    ];
    file
}

#[test]
fn records_have_their_number_and_name() {
    let file = with_records();
    lists(
        &file,
        "class 2\nrecord yard 7\nrecord \"\\x1B[2J\\\\ \\xFC\" 65535",
        "",
        "  place  length
    281       3  record 1, \"yard\" 7
    338       0  record 2, \"\\x1B[2J\\\\ \\xFC\" 65535
    392       0  record 3, \"yard\" 7
    392      20  point 1
    412      20  point 2
5 parts: 3 records, 2 points, 43 bytes
",
    );
    lists(
        &file,
        "record yard 7\nclass 0-255",
        "--runs",
        "  place  length
    281       3  record 1, \"yard\" 7
    392       0  record 3, \"yard\" 7
    392      60  points 1 to 3
5 parts: 2 records, 3 points, 63 bytes
",
    );
    let scratch = with_files(&file.bytes(), "record \"\\x1B[2J\\\\ \\xFC\" 65535");
    let json = json::read(&scratch.says("list --json in.las sheet.txt").out).expect("JSON");
    let name = json.at("lines/0/user_id").text();
    assert_eq!(name, "\\x1B[2J\\\\ \\xFC");
}

/// A record without a payload is shorter than such a point.
#[test]
fn long_points_have_their_length() {
    let mut file = with_records();
    file.record_length = 65535;
    file.points = Vec::new();
    let lines = "  place  length
    281       3  record 1, \"yard\" 7
    392       0  record 3, \"yard\" 7
2 parts: 2 records, 0 points, 3 bytes
";
    lists(&file, "record yard 7\nclass 0", "", lines);
    file.points = vec![vec![0; 65535]; 2];
    let lines = "  place  length
    281       3  record 1, \"yard\" 7
    392       0  record 3, \"yard\" 7
    392  131070  points 1 to 2
4 parts: 2 records, 2 points, 131073 bytes
";
    lists(&file, "record yard 7\nclass 0", "--runs", lines);
}

/// Points of a class go out whatever their flags say, but for withheld ones, which part those around them.
#[test]
fn withheld_points_have_no_line() {
    let file = of_classes(&[2, 34, 130, 66, 98, 194, 6, 2]);
    let lines = "  place  length
    227      40  points 1 to 2
    287      40  points 4 to 5
    367      20  point 8
5 parts: 0 records, 5 points, 100 bytes
";
    lists(&file, "class 2", "--runs", lines);
    lists(&file, "class 2\nclass 128-255", "--runs", lines);
}

#[test]
fn few_or_no_parts() {
    let file = with_records();
    let none = "0 parts: 0 records, 0 points, 0 bytes\n";
    for sheet in ["", "class 9", "class 32-255", "record yard 8"] {
        for options in ["", "--runs"] {
            lists(&file, sheet, options, none);
        }
    }
    lists(&FileSpec::bare(0), "class 0-255\nrecord yard 7", "", none);
    let line = "  place  length\n    432      20  point 3\n1 part: 0 records, 1 point, 20 bytes\n";
    lists(&file, "class 6", "", line);
    let mut short = FileSpec::bare(0);
    short.records = vec![record(b"yard", 7, 1)];
    let line = "  place  length\n    281       1  record 1, \"yard\" 7\n\
                1 part: 1 record, 0 points, 1 byte\n";
    lists(&short, "record yard 7", "", line);
    let ran = with_files(&file.bytes(), "").says("list --json in.las sheet.txt");
    let wanted = "{\n  \"file\": \"in.las\",\n  \"sheet\": \"sheet.txt\",\n  \"records\": 0,\n  \
                  \"points\": 0,\n  \"bytes\": 0,\n  \"lines\": []\n}\n";
    assert_eq!(ran, Ran::new(0, wanted, ""));
}

/// The columns are as wide as what is printed, and no wider.
#[test]
fn columns_fit_large_places_and_lengths() {
    let mut file = of_classes(&[5; 59_999]);
    file.points.push(point([0; 3], 2, 1));
    lists(
        &file,
        "class 2",
        "",
        "    place  length\n  1200207      20  point 60000\n1 part: 0 records, 1 point, 20 bytes\n",
    );
    lists(
        &file,
        "class 2-5",
        "--runs",
        "  place   length\n    227  1200000  points 1 to 60000\n\
         60000 parts: 0 records, 60000 points, 1200000 bytes\n",
    );
}

#[test]
fn refusals_come_in_the_order_of_a_release() {
    let good = of_classes(&[2]).bytes();
    let mut bad = good.clone();
    spoil(&mut bad, 3);
    let of_file = "in.las: refused 3: version is not 1.2 (version 1.3)\n";
    let of_sheet = "sheet.txt: refused 21: a line of the sheet is of an unknown kind (line 1 at byte 0: kind 7)\n";
    let of_text =
        "sheet.txt:1:1: expected 'class', 'record' or 'box', found 'clas'; did you mean 'class'?\n";
    for (file, sheet, words) in [
        (&bad, "class 2", of_file),
        (&bad, "KS\x07", of_file),
        (&good, "KS\x07", of_sheet),
        (&good, "clas 2", of_text),
        (&bad, "clas 2", of_text),
    ] {
        let scratch = with_files(file, sheet);
        for options in ["", "--json", "--runs"] {
            let ran = scratch.says(&format!("list {options} in.las sheet.txt"));
            assert_eq!(ran, Ran::new(1, "", words));
        }
        // a release says the same
        assert_eq!(scratch.says("release in.las sheet.txt out.las").err, words);
    }
}

#[test]
fn every_number_of_a_file_and_of_a_sheet_is_given() {
    let good = with_records().bytes();
    for number in 1..=10 {
        let mut file = good.clone();
        spoil(&mut file, number);
        let ran = with_files(&file, "class 2").says("list in.las sheet.txt");
        assert_eq!((ran.status, ran.out.as_str()), (Some(1), ""));
        let words = format!("in.las: refused {number}: ");
        assert!(ran.err.starts_with(&words), "{}", ran.err);
    }
    for (number, sheet) in [
        (20, &b"KS\x01\x02\x02KT\x01"[..]),
        (21, b"KS\x04\x02\x02"),
        (22, b"KS\x02yard"),
        (23, b"KS\x01\x03\x02"),
        (24, &b"KS\x01\x02\x02".repeat(65)),
    ] {
        let ran = with_files(&good, sheet).says("list in.las sheet.txt");
        assert_eq!((ran.status, ran.out.as_str()), (Some(1), ""));
        let words = format!("sheet.txt: refused {number}: ");
        assert!(ran.err.starts_with(&words), "{}", ran.err);
    }
}

#[test]
fn a_dash_is_standard_input() {
    let scratch = Scratch::with_card("yard");
    let wanted = include_str!("expected/list-yard.txt");
    for (words, from, name, shown) in [
        (
            ["list", "-", "sheet.bin"],
            "in.las",
            "in.las under",
            "standard input under",
        ),
        (
            ["list", "in.las", "-"],
            "sheet.bin",
            "under sheet.bin",
            "under standard input",
        ),
    ] {
        let mut command = scratch.command(words);
        command.stdin(File::open(scratch.path(from)).unwrap());
        let wanted = wanted.replacen(name, shown, 1);
        assert_eq!(Ran::of(command.output().unwrap()), Ran::new(0, &wanted, ""));
    }
}

#[test]
fn wrong_usage_and_missing_files_have_statuses_of_their_own() {
    let scratch = with_files(&of_classes(&[2]).bytes(), "class 2");
    for (words, status) in [
        ("list in.las", 2),
        ("list in.las sheet.txt out.txt", 2),
        ("list - -", 2),
        ("list in.las missing.txt", 3),
        ("list missing.las sheet.txt", 3),
        ("list in.las in.las", 1),
        ("list --help", 0),
    ] {
        assert_eq!(scratch.says(words).status, Some(status), "{words}");
    }
    assert_eq!(scratch.names(), ["in.las", "sheet.txt"]);
}

/// Nothing is read where words are wrong.
#[test]
fn wrong_words_are_said() {
    let usage = "usage: korbishaf list [--quiet] [--json] [--runs] IN SHEET ('korbishaf help list' says more)\n";
    let unknown = "the options are --quiet, --json, --runs";
    for (words, said) in [
        (
            "list in.las",
            "expected IN SHEET, found one word".to_string(),
        ),
        (
            "list - -",
            "only one of the words can be standard input".into(),
        ),
        (
            "list -o list.txt in.las sheet.txt",
            format!("unknown option '-o'; {unknown}"),
        ),
        (
            "list --force in.las sheet.txt",
            format!("unknown option '--force'; {unknown}"),
        ),
        (
            "list --runs=2 in.las sheet.txt",
            format!("unknown option '--runs=2'; {unknown}"),
        ),
    ] {
        let said = format!("korbishaf list: {said}\n{usage}");
        assert_eq!(Scratch::new().says(words), Ran::new(2, "", &said));
    }
    let ran = Scratch::new().says("report --runs in.las sheet.txt");
    assert_eq!(ran.status, Some(2));
    let start = "korbishaf report: unknown option '--runs'";
    assert!(ran.err.starts_with(start), "{}", ran.err);
}

#[test]
fn the_help_shows_what_is_printed() {
    let scratch = Scratch::with_card("yard");
    scratch.write("scan.las", scratch.read("in.las"));
    scratch.write("sheet.txt", "class building\nrecord yard 7");
    let printed = scratch.says("list scan.las sheet.txt").out;
    let indented: String = printed.lines().map(|line| format!("  {line}\n")).collect();
    let help = scratch.says("help list").out;
    assert!(help.contains(&format!("\n\n{indented}\n")), "{help}");
    let runs = scratch.says("list --runs scan.las sheet.txt").out;
    assert!(runs.contains("  points 7 to 8\n") && help.contains("'points 7 to 8'"));
}

/// A list shows what must not be handed on: the help says so.
#[test]
fn the_help_says_whom_the_list_is_for() {
    let help = Scratch::new().says("help list").out;
    let words = "The list is for the seller, who has the scan, and not to be handed on: it shows places in IN";
    assert!(help.contains(words), "{help}");
}

//! `korbishaf show`, as a process.

mod common;

use common::json::{self, Value};
use common::scan::{of_classes, point, record};
use common::{Ran, Scratch};
use compare::damage::spoil;
use compare::rng::{Rng, seeds};
use compare::spec::{FileSpec, RecordSpec, directory, padded, projection};
use las_plain::LasFile;
use std::fs::File;

/// How many random files are compared with `las_plain`, for each seed.
const FILES: usize = 150;

/// A folder with a file `in.las`.
fn with_file(file: &[u8]) -> Scratch {
    let scratch = Scratch::new();
    scratch.write("in.las", file);
    scratch
}

/// What is printed of a file as text.
fn shown(file: &[u8]) -> String {
    let ran = with_file(file).says("show in.las");
    assert_eq!((ran.status, ran.err.as_str()), (Some(0), ""));
    ran.out
}

/// What is printed of a file as JSON.
fn shown_as_json(file: &[u8]) -> Value {
    let ran = with_file(file).says("show --json in.las");
    assert_eq!((ran.status, ran.err.as_str()), (Some(0), ""));
    json::read(&ran.out).unwrap_or_else(|| panic!("no JSON: {}", ran.out))
}

/// The lines of a section.
fn section<'a>(text: &'a str, title: &str) -> Vec<&'a str> {
    let lines = text.lines().skip_while(|line| *line != title).skip(1);
    lines.take_while(|line| !line.is_empty()).collect()
}

#[test]
fn the_cards_are_shown() {
    for (card, text, json) in [
        (
            "yard",
            include_str!("expected/show-yard.txt"),
            include_str!("expected/show-yard.json"),
        ),
        (
            "survey",
            include_str!("expected/show-survey.txt"),
            include_str!("expected/show-survey.json"),
        ),
    ] {
        let scratch = Scratch::with_card(card);
        assert_eq!(scratch.says("show in.las"), Ran::new(0, text, ""));
        assert_eq!(scratch.says("show --json in.las"), Ran::new(0, json, ""));
        assert!(json::read(json).is_some());
    }
}

/// A file with GeoKeys of every kind, classes with flags, odd texts, and bytes beside records and points. What it
/// states of return 2, max Z and min Z is wrong; min X is stated as the other zero.
fn rich() -> FileSpec {
    FileSpec {
        front: std::array::from_fn(|place| place as u8 + 1),
        system: padded(b"a\\b"),
        software: padded(b"\x07bell"),
        day: 366,
        year: 65535,
        record_length: 22,
        old_by_return: [2, 9, 0, 0, 0],
        scale: [0.5, 0.25, 1.0],
        offset: [5.0, 0.0, -1.0],
        old_bounds: [7.0, -0.0, 5.0, -1.5, 7.5, f64::INFINITY].map(f64::to_bits),
        header_extra: vec![0; 3],
        records: rich_records(),
        gap: vec![0, 0, 1],
        points: rich_points(),
        trailing: vec![0; 4],
        ..FileSpec::bare(0)
    }
}

fn rich_records() -> Vec<RecordSpec> {
    let keys = [
        [1024, 0, 1, 2],
        [2057, 34736, 1, 1],
        [1026, 34737, 7, 4],
        [1024, 0, 1, 1],
        [2054, 0, 1, 9102],
        [9999, 0, 2, 5],
        [3076, 34736, 1, 2],
        [4099, 1, 1, 0],
    ];
    let mut odd = record(b"\"own\"\n \xFC", 7, 1);
    odd.description = padded(b"\x1B[2J");
    vec![
        projection(34735, directory([1, 1, 0, 8], &keys)),
        projection(34736, [1.5f64, 6378137.0].map(f64::to_le_bytes).concat()),
        projection(34737, *b"abcdWGS 84|x"),
        odd,
    ]
}

fn rich_points() -> Vec<Vec<u8>> {
    let mut points = vec![
        point([-10, 20, 0], 2, 1),
        point([4, -6, 8], 66, 2),
        point([0, 0, -2], 66, 7),
        point([2, 2, 2], 255, 0),
        point([1, 1, 1], 10, 1),
    ];
    points.iter_mut().for_each(|point| point.extend([0xEE; 2]));
    points
}

/// Its text, worked out by hand.
const RICH: &str = r#"in.las: 664 bytes, 5 points, 4 records

Header
  file source ID         513
  global encoding        1027
  project GUID           08070605-0a09-0c0b-0d0e-0f1011121314
  version                1.2
  system identifier      "a\\b"
  generating software    "\x07bell"
  creation day           366
  creation year          65535
  header size            230
  point offset           550
  number of records      4
  point format           0
  record length          22
  extra bytes per point  2
  number of points       5
  X, Y, Z scales         0.5, 0.25, 1.0
  X, Y, Z offsets        5.0, 0.0, -1.0

Beside header, records and points
  extra header bytes       3  all zero
  gap before the points    3  not all zero
  bytes behind the points  4  all zero

Records
  1  "LASF_Projection" 34735  72 bytes  ""         GeoKey directory
  2  "LASF_Projection" 34736  16 bytes  ""         GeoKey doubles
  3  "LASF_Projection" 34737  12 bytes  ""         GeoKey texts
  4  ""own"\x0A \xFC" 7         1 byte  "\x1B[2J"

Points by class
   2  ground    3
  10  reserved  1
  31  reserved  1

Points by flag
  synthetic  1
  key-point  3
  withheld   1

Points by return number
     stated  actual
  0       -       1
  1       2       2
  2       9       1  differs
  3       0       0
  4       0       0
  5       0       0
  6       -       0
  7       -       1

Bounds
         stated  actual  stored
  max X     7.0     7.0       4
  min X    -0.0     0.0     -10
  max Y     5.0     5.0      20
  min Y    -1.5    -1.5      -6
  max Z     7.5     7.0       8  differs
  min Z     inf    -3.0      -2  differs

GeoKeys
  1024  GTModelTypeGeoKey        2 (geographic)
  2057  GeogSemiMajorAxisGeoKey  6378137.0
  1026  GTCitationGeoKey         "WGS 84|"
  1024  GTModelTypeGeoKey        not looked at, since the key's first entry counts
  2054  GeogAngularUnitsGeoKey   9102 (degree)
  9999  unknown key              refused 44: a short or a double has a count other than 1
  3076  ProjLinearUnitsGeoKey    refused 46: the key's value runs past its parameter record
  4099  VerticalUnitsGeoKey      refused 43: the key's location is not 0, 34736 or 34737
"#;

#[test]
fn everything_that_a_file_may_have_is_shown() {
    assert_eq!(shown(&rich().bytes()), RICH);
}

#[test]
fn texts_in_json() {
    let json = shown_as_json(&rich().bytes());
    for (path, wanted) in [
        ("header/system_identifier", r"a\\b"),
        ("header/generating_software", r"\x07bell"),
        ("records/3/user_id", r#""own"\x0A \xFC"#),
        ("records/3/description", r"\x1B[2J"),
        ("points_by_class/0/name", "ground"),
        ("bounds/min_z/stated", "inf"),
        ("geokeys/keys/0/meaning", "geographic"),
        ("geokeys/keys/1/kind", "double"),
        ("geokeys/keys/2/value", "WGS 84|"),
    ] {
        assert_eq!(json.at(path).text(), wanted, "{path}");
    }
}

#[test]
fn numbers_and_marks_in_json() {
    let json = shown_as_json(&rich().bytes());
    for (path, wanted) in [
        ("header/extra_bytes_per_point", 2),
        ("gap_before_points/length", 3),
        ("points_by_class/0/points", 3),
        ("points_by_class/2/class", 31),
        ("points_by_flag/synthetic", 1),
        ("points_by_flag/key_point", 3),
        ("points_by_flag/withheld", 1),
        ("points_by_return/2/stated", 9),
        ("points_by_return/2/actual", 1),
        ("geokeys/keys/0/value", 2),
        ("geokeys/keys/2/text_length", 7),
        ("geokeys/keys/6/refusal/number", 46),
    ] {
        assert_eq!(json.at(path).number(), wanted, "{path}");
    }
    for (path, wanted) in [
        ("extra_header_bytes/all_zero", true),
        ("gap_before_points/all_zero", false),
        ("points_by_return/1/differs", false),
        ("points_by_return/2/differs", true),
        ("bounds/min_x/differs", false),
        ("bounds/min_z/differs", true),
        ("geokeys/keys/0/repeated", false),
        ("geokeys/keys/3/repeated", true),
    ] {
        assert_eq!(json.at(path), &Value::Bool(wanted), "{path}");
    }
    assert_eq!(json.at("points_by_class/2/name"), &Value::Null);
    assert_eq!(json.at("points_by_return/0/stated"), &Value::Null);
    assert_eq!(json.at("geokeys/refusal"), &Value::Null);
}

#[test]
fn a_file_without_points_has_bounds_of_zero() {
    let mut file = FileSpec::bare(2);
    let text = shown(&file.bytes());
    assert_eq!(section(&text, "Records"), ["  none"]);
    assert_eq!(section(&text, "Points by class"), ["  none"]);
    assert_eq!(section(&text, "Points by flag"), ["  none"]);
    assert_eq!(section(&text, "Bounds").len(), 7);
    assert!(!text.contains("differs"));
    file.old_bounds[3] = 1f64.to_bits();
    let text = shown(&file.bytes());
    assert_eq!(
        section(&text, "Bounds")[4],
        "  min Y     1.0     0.0       -  differs"
    );
}

#[test]
fn a_directory_that_has_no_keys_to_read_is_said() {
    for (payload, line) in [
        (
            directory([1, 1, 0, 0], &[]),
            "  the GeoKey directory has no keys",
        ),
        (
            directory([1, 2, 0, 1], &[[1024, 0, 1, 1]]),
            "  refused 41: the GeoKey directory is too short or does not begin 1, 1, 0",
        ),
        (
            directory([1, 1, 0, 1], &[[1026, 34737, 0, 0]]),
            "  1026  GTCitationGeoKey  refused 45: the parameter record that the key's location names is absent",
        ),
    ] {
        let mut file = FileSpec::bare(0);
        file.records.push(projection(34735, payload));
        assert_eq!(section(&shown(&file.bytes()), "GeoKeys"), [line]);
    }
}

#[test]
fn a_long_text_of_a_key_is_cut() {
    for (length, wanted) in [
        (
            255,
            format!("  1026  GTCitationGeoKey  \"{}\"", "x".repeat(255)),
        ),
        (
            256,
            format!(
                "  1026  GTCitationGeoKey  \"{}\" and more, 256 bytes in all",
                "x".repeat(255)
            ),
        ),
    ] {
        let mut file = FileSpec::bare(0);
        let keys = directory([1, 1, 0, 1], &[[1026, 34737, length, 0]]);
        file.records = vec![
            projection(34735, keys),
            projection(34737, vec![b'x'; length.into()]),
        ];
        let text = shown(&file.bytes());
        assert_eq!(section(&text, "GeoKeys"), [wanted]);
    }
}

#[test]
fn files_that_do_not_pass_are_refused() {
    for (number, words) in [
        (1, "in.las: refused 1: fewer than 227 bytes (length 226)\n"),
        (
            2,
            "in.las: refused 2: signature is not \"LASF\" (it begins with \"lASF\")\n",
        ),
        (3, "in.las: refused 3: version is not 1.2 (version 1.3)\n"),
        (5, "in.las: refused 5: point format above 3 (format 4)\n"),
    ] {
        let mut file = of_classes(&[2]).bytes();
        spoil(&mut file, number);
        let scratch = with_file(&file);
        assert_eq!(scratch.says("show in.las"), Ran::new(1, "", words));
        assert_eq!(scratch.says("show --json in.las"), Ran::new(1, "", words));
    }
    for number in 1..=10 {
        let mut file = of_classes(&[2]).bytes();
        spoil(&mut file, number);
        let ran = with_file(&file).says("show in.las");
        assert_eq!((ran.status, ran.out.as_str()), (Some(1), ""));
        assert!(
            ran.err.starts_with(&format!("in.las: refused {number}: ")),
            "{}",
            ran.err
        );
    }
}

#[test]
fn a_dash_is_standard_input() {
    let scratch = with_file(&rich().bytes());
    let mut command = scratch.command(["show", "-q", "-"]);
    command.stdin(File::open(scratch.path("in.las")).unwrap());
    let wanted = RICH.replace("in.las: ", "standard input: ");
    assert_eq!(Ran::of(command.output().unwrap()), Ran::new(0, &wanted, ""));
}

#[test]
fn wrong_usage_and_missing_files_have_statuses_of_their_own() {
    let scratch = Scratch::new();
    for (words, status) in [
        ("show", 2),
        ("show a b", 2),
        ("show --force a", 2),
        ("show missing.las", 3),
        ("show --help", 0),
    ] {
        assert_eq!(scratch.says(words).status, Some(status), "{words}");
    }
    assert_eq!(scratch.names(), [""; 0]);
}

#[test]
fn help_has_the_commands_in_lines_that_are_not_long() {
    let scratch = Scratch::new();
    for (words, line) in [
        ("help", "  report IN SHEET           say what"),
        ("help", "  show FILE                 show what"),
        ("help show", "usage: korbishaf show [--quiet] [--json] FILE"),
        (
            "help report",
            "usage: korbishaf report [--quiet] [--json] IN SHEET",
        ),
    ] {
        let ran = scratch.says(words);
        assert_eq!((ran.status, ran.err.as_str()), (Some(0), ""));
        assert!(
            ran.out.lines().any(|found| found.starts_with(line)),
            "{}",
            ran.out
        );
        assert!(ran.out.lines().all(|line| line.len() <= 105), "{}", ran.out);
    }
}

#[test]
fn the_reader_of_json_takes_nothing_else() {
    for good in [
        "{}",
        " [ ] ",
        "-0.0",
        "1e300",
        "[1, \"\\u001b\\\\\"]",
        "{\"a\": {\"a\": null}}",
    ] {
        assert!(json::read(good).is_some(), "{good}");
    }
    for bad in [
        "",
        "{",
        "[1,]",
        "{\"a\": 1,}",
        "{\"a\": 1, \"a\": 2}",
        "01",
        "1.",
        ".5",
        "+1",
        "1e",
        "NaN",
        "inf",
        "\"\n\"",
        "\"\\x1B\"",
        "\"\\u12\"",
        "\"open",
        "nul",
        "1 2",
        "{a: 1}",
        "'a'",
    ] {
        assert_eq!(json::read(bad), None, "{bad}");
    }
}

#[test]
fn counts_and_bounds_agree_with_las_plain() {
    let scratch = Scratch::new();
    for seed in seeds() {
        let mut rng = Rng::new(seed);
        for index in 0..FILES {
            let file = FileSpec::random(&mut rng).bytes();
            scratch.write("in.las", &file);
            let ran = scratch.says("show --json in.las");
            let json = json::read(&ran.out).expect("JSON");
            let found = Counts::shown(&json);
            assert_eq!(found, Counts::plain(&file), "file {index} of seed {seed}");
        }
    }
}

/// What is compared: points by class, by flag and by return, the bounds' bits, and the sizes of records.
#[derive(Debug, PartialEq)]
struct Counts {
    by_class: Vec<(u64, u64)>,
    by_flag: [u64; 3],
    by_return: Vec<u64>,
    bounds: Vec<u64>,
    payloads: Vec<u64>,
}

impl Counts {
    fn shown(json: &Value) -> Self {
        let classes = json.at("points_by_class").list().iter();
        let returns = json.at("points_by_return").list().iter();
        let names = ["max_x", "min_x", "max_y", "min_y", "max_z", "min_z"];
        let records = json.at("records").list().iter();
        Counts {
            by_class: classes
                .map(|count| (count.at("class").number(), count.at("points").number()))
                .collect(),
            by_flag: ["synthetic", "key_point", "withheld"]
                .map(|flag| json.at("points_by_flag").at(flag).number()),
            by_return: returns.map(|count| count.at("actual").number()).collect(),
            bounds: names
                .map(|name| json.at(&format!("bounds/{name}/actual")).double().to_bits())
                .into(),
            payloads: records
                .map(|record| record.at("payload_length").number())
                .collect(),
        }
    }

    fn plain(file: &[u8]) -> Self {
        let read = LasFile::open(file).unwrap();
        let header = read.header();
        let points: Vec<_> = (0..header.point_count.into())
            .map(|index| read.point_at(index).unwrap().1)
            .collect();
        let count = |matches: &dyn Fn(&las_plain::Point) -> bool| {
            points.iter().filter(|point| matches(point)).count() as u64
        };
        let by_class = (0..=255)
            .map(|class: u8| (class.into(), count(&|point| point.classification == class)));
        let by_return = (0..8).map(|number: u8| count(&|point| point.return_number == number));
        Counts {
            by_class: by_class.filter(|&(_, points)| points > 0).collect(),
            by_flag: [
                count(&|point| point.synthetic),
                count(&|point| point.key_point),
                count(&|point| point.withheld),
            ],
            by_return: by_return.collect(),
            bounds: plain_bounds(file),
            payloads: read.vlrs().map(|vlr| vlr.payload.len() as u64).collect(),
        }
    }
}

/// The bounds that `las_plain` states where it mends the file: those of every point, withheld ones too.
fn plain_bounds(file: &[u8]) -> Vec<u64> {
    let mut mended = file.to_vec();
    las_plain::mend(&mut mended).unwrap();
    let bounds = LasFile::open(&mended).unwrap().header().bounds;
    let pairs = bounds.max.iter().zip(&bounds.min);
    pairs
        .flat_map(|(max, min)| [max.to_bits(), min.to_bits()])
        .collect()
}

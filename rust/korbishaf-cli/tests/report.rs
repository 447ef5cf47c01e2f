//! `korbishaf report`, as a process.

mod common;
#[path = "common/warned.rs"]
mod warned;

use common::json::{self, Value};
use common::scan::{of_classes, point, record};
use common::{Ran, Scratch};
use compare::damage::spoil;
use compare::rng::{Rng, seeds};
use compare::spec::{FileSpec, SheetSpec, directory, projection};
use las_plain::Point;
use std::collections::BTreeMap;
use std::fs::File;
use warned::{is_silent, warnings, warns, with_files};

/// How many random files and sheets are compared with `las_plain`, for each seed.
const FILES: usize = 150;

#[test]
fn the_cards_are_reported_on_and_nothing_is_written() {
    for (card, text, json) in [
        (
            "yard",
            include_str!("expected/report-yard.txt"),
            include_str!("expected/report-yard.json"),
        ),
        (
            "survey",
            include_str!("expected/report-survey.txt"),
            include_str!("expected/report-survey.json"),
        ),
    ] {
        let scratch = Scratch::with_card(card);
        let names = scratch.names();
        assert_eq!(
            scratch.says("report in.las sheet.bin"),
            Ran::new(0, text, "")
        );
        assert_eq!(
            scratch.says("report --json in.las sheet.bin"),
            Ran::new(0, json, "")
        );
        assert!(json::read(json).is_some());
        assert_eq!(scratch.names(), names);
    }
}

#[test]
fn lines_that_match_nothing() {
    let mut file = of_classes(&[2, 6]);
    file.records.push(record(b"yard", 7, 3));
    is_silent(&file, "class 2\nrecord yard 7");
    is_silent(&file, "class 0-5\n# class 9\n");
    let words = "sheet.txt:4: matches nothing in this file: class 3-5";
    warns(
        &file,
        "# two lines\nclass 2\n\nclass 3-5",
        "line_matches_nothing",
        words,
    );
    let words = "sheet.txt:1: matches nothing in this file: record yard 8";
    warns(
        &file,
        "record yard 8\nclass 6",
        "line_matches_nothing",
        words,
    );
    let words = r#"sheet.txt:1: matches nothing in this file: record "my \x1B" 7"#;
    warns(
        &file,
        "record \"my \\x1B\" 7\nclass 6",
        "line_matches_nothing",
        words,
    );
}

/// A file of the classes 2 and 6 with a GeoKey directory that points to these locations, and these records too.
fn with_keys(locations: &[u16], parameters: &[u16]) -> FileSpec {
    let entry = |(key, &location): (u16, &u16)| [key, location, 1, 0];
    let entries: Vec<_> = (2057..).zip(locations).map(entry).collect();
    let payload = directory([1, 1, 0, entries.len() as u16], &entries);
    let mut file = of_classes(&[2, 6]);
    file.records.push(projection(34735, payload));
    let parameters = parameters.iter().map(|&id| projection(id, [0x20; 8]));
    file.records.extend(parameters);
    file
}

#[test]
fn a_directory_without_the_parameters_that_its_keys_point_to() {
    let directory_alone = "class 2\nrecord LASF_Projection 34735";
    let with_doubles = "class 2\nrecord LASF_Projection 34735\nrecord LASF_Projection 34736";
    is_silent(&with_keys(&[0, 0], &[34736, 34737]), directory_alone);
    is_silent(&with_keys(&[0, 34736], &[34736, 34737]), with_doubles);
    is_silent(&with_keys(&[34736, 34737], &[34736, 34737]), "class 2");
    let words = "the GeoKey directory goes out, and its key 2058 GeogSemiMinorAxisGeoKey points to the record \
                 LASF_Projection 34736, which stays; the line 'record LASF_Projection 34736' would keep it";
    let file = with_keys(&[0, 34736, 34736], &[34736, 34737]);
    warns(&file, directory_alone, "parameters_not_kept", words);
    let words = "the GeoKey directory goes out, and its key 2059 GeogInvFlatteningGeoKey points to the record \
                 LASF_Projection 34737, which this file does not have";
    let file = with_keys(&[0, 34736, 34737], &[34736]);
    warns(&file, with_doubles, "parameters_absent", words);
    let both = with_keys(&[34737, 34736], &[34737]);
    let kinds = warnings(&both, directory_alone)
        .into_iter()
        .map(|(kind, _)| kind);
    assert!(kinds.eq(["parameters_absent", "parameters_not_kept"]));
}

#[test]
fn records_whose_names_a_line_nearly_has() {
    let mut file = of_classes(&[2, 6]);
    for user_id in [&b"yard"[..], b"Yard", b"yard\t", b" ya rd", b"yards"] {
        file.records.push(record(user_id, 7, 1));
    }
    file.records.push(record(b"YARD", 8, 1));
    let near = |number: usize, name: &str| {
        let words = format!(
            "record {number}, {name} 7, stays: its name differs only in case or blanks from sheet.txt:2: record yard 7"
        );
        ("record_nearly_named".to_string(), words)
    };
    let wanted = [
        near(2, "\"Yard\""),
        near(3, "\"yard\\x09\""),
        near(4, "\" ya rd\""),
    ];
    assert_eq!(warnings(&file, "class 2\nrecord yard 7"), wanted);
    file.records
        .extend([record(b"Yard", 7, 2), record(b"Yard", 7, 3)]);
    let words = "record 2, \"Yard\" 7, and 2 more of that name stay: it differs only in case or blanks from \
                 sheet.txt:2: record yard 7";
    assert_eq!(warnings(&file, "class 2\nrecord yard 7")[0].1, words);
    file.records.truncate(6);
    file.records.drain(1..4);
    is_silent(&file, "class 2\nrecord yard 7");
    is_silent(&file, "class 2\nrecord yard 7\nrecord YARD 8");
}

/// The lines of a sheet of bytes are counted, since it has no text.
#[test]
fn lines_of_bytes_are_counted() {
    let mut file = of_classes(&[2, 6]);
    file.records.push(record(b"Yard", 7, 1));
    let sheet =
        korbishaf::Sheet::from_text("class 2\n\nclass 9\n# comment\nrecord yard 7").unwrap();
    let scratch = with_files(&file.bytes(), sheet.as_bytes());
    let text = scratch.says("report in.las sheet.txt").out;
    let (_, section) = text.split_once("\nWarnings\n").expect("a section");
    let wanted = "  - line 2 of sheet.txt: matches nothing in this file: class 9
  - line 3 of sheet.txt: matches nothing in this file: record yard 7
  - record 1, \"Yard\" 7, stays: its name differs only in case or blanks from line 3 of sheet.txt: record yard 7
";
    assert_eq!(section, wanted);
    let json = json::read(&scratch.says("report --json in.las sheet.txt").out).expect("JSON");
    for (path, wanted) in [("0/line", 2), ("1/line", 3), ("2/line", 3)] {
        assert_eq!(json.at("warnings").at(path).number(), wanted, "{path}");
    }
}

/// However many spellings of a name a file has, 32 of them have warnings of their own.
#[test]
fn near_names_that_are_many_are_counted() {
    let spelling = |index: usize| {
        let letters = (0..8).map(|bit| if index >> bit & 1 == 1 { b'A' } else { b'a' });
        record(&letters.collect::<Vec<u8>>(), 7, 0)
    };
    let mut file = of_classes(&[2, 6]);
    file.records = (0..33).map(spelling).collect();
    let sheet = "class 2\nrecord aaaaaaaa 7";
    let found = warnings(&file, sheet);
    assert_eq!(found.len(), 32);
    assert!(found.iter().all(|(kind, _)| kind == "record_nearly_named"));
    for (spellings, words) in [
        (
            34,
            "1 more record stays whose name nearly matches a line of the sheet",
        ),
        (
            40,
            "7 more records stay whose names nearly match a line of the sheet",
        ),
    ] {
        file.records = (0..spellings).map(spelling).collect();
        // those of a name that has a warning are counted there
        file.records.push(spelling(32));
        let found = warnings(&file, sheet);
        assert_eq!(found.len(), 33);
        assert!(
            found[31].1.contains("and 1 more of that name stay"),
            "{}",
            found[31].1
        );
        assert_eq!(
            found[32],
            ("more_records_nearly_named".into(), words.into())
        );
    }
}

#[test]
fn all_or_none_of_the_points() {
    let file = of_classes(&[2, 2, 6]);
    is_silent(&file, "class 2");
    warns(
        &file,
        "class 2-6",
        "every_point_goes_out",
        "every point goes out (3 of 3)",
    );
    warns(&file, "", "no_point_goes_out", "no point goes out (0 of 3)");
    is_silent(&of_classes(&[]), "");
}

#[test]
fn stated_counts_and_bounds_that_are_wrong() {
    let mut file = of_classes(&[2]);
    file.points.push(point([100, -200, 0], 6, 2));
    file.old_by_return = [1, 1, 0, 0, 0];
    file.old_bounds = [1.0, 0.0, -0.0, -2.0, 0.0, 0.0].map(f64::to_bits);
    is_silent(&file, "class 2");
    let mut wrong = file.clone();
    wrong.old_by_return = [1, 2, 0, 0, 7];
    let words = "the stated points by return are wrong (return 2, return 5); a release has its own";
    warns(&wrong, "class 2", "returns_wrong", words);
    file.old_bounds[4] = f64::NAN.to_bits();
    let words = "the stated bounds are wrong (max Z); a release has its own";
    warns(&file, "class 2", "bounds_wrong", words);
}

#[test]
fn what_warnings_speak_of_is_in_json() {
    let mut file = of_classes(&[2, 130]);
    file.records.push(record(b"Yard\x07", 7, 1));
    file.old_by_return = [9, 0, 0, 0, 0];
    let sheet = "class 2\n# a comment\r\nrecord \"yard \\x07\" 7\n\nclass 9";
    let ran = with_files(&file.bytes(), sheet).says("report --json in.las sheet.txt");
    let json = json::read(&ran.out).expect("JSON");
    let json = json.at("warnings");
    for (path, wanted) in [
        ("0/kind", "line_matches_nothing"),
        ("1/kind", "line_matches_nothing"),
        ("1/line_text", "class 9"),
        ("2/kind", "record_nearly_named"),
        ("2/user_id", "Yard\\x07"),
        ("3/kind", "withheld_stays"),
        ("4/kind", "every_point_goes_out"),
        ("5/kind", "returns_wrong"),
    ] {
        assert_eq!(json.at(path).text(), wanted, "{path}");
    }
    for (path, wanted) in [
        ("1/line", 5),
        ("2/line", 3),
        ("2/first_record", 1),
        ("2/records", 1),
        ("2/record_id", 7),
        ("3/class", 2),
        ("3/points", 1),
        ("4/points", 2),
        ("5/values/0/stated", 9),
        ("5/values/0/actual", 2),
    ] {
        assert_eq!(json.at(path).number(), wanted, "{path}");
    }
}

#[test]
fn refusals_come_in_the_order_of_a_release() {
    let good = of_classes(&[2]).bytes();
    let mut bad = good.clone();
    spoil(&mut bad, 3);
    let of_file = "in.las: refused 3: version is not 1.2 (version 1.3)\n";
    let of_sheet = "sheet.txt: refused 21: a line of the sheet is of an unknown kind (line 1 at byte 0: kind 7)\n";
    let of_text =
        "sheet.txt:1:1: expected 'class', 'record' or 'box', found 'clas'; did you mean 'class'?\n";
    for (file, sheet, words) in [
        (&bad, "class 2", of_file),
        (&bad, "KS\x07", of_file),
        (&good, "KS\x07", of_sheet),
        (&good, "clas 2", of_text),
        (&bad, "clas 2", of_text),
    ] {
        let scratch = with_files(file, sheet);
        assert_eq!(
            scratch.says("report in.las sheet.txt"),
            Ran::new(1, "", words)
        );
        assert_eq!(
            scratch.says("report --json in.las sheet.txt"),
            Ran::new(1, "", words)
        );
        // a release says the same
        assert_eq!(scratch.says("release in.las sheet.txt out.las").err, words);
    }
}

#[test]
fn every_number_of_a_file_is_given() {
    for number in 1..=10 {
        let mut file = of_classes(&[2]).bytes();
        spoil(&mut file, number);
        let ran = with_files(&file, "class 2").says("report in.las sheet.txt");
        assert_eq!((ran.status, ran.out.as_str()), (Some(1), ""));
        assert!(
            ran.err.starts_with(&format!("in.las: refused {number}: ")),
            "{}",
            ran.err
        );
    }
}

#[test]
fn a_dash_is_standard_input() {
    let scratch = Scratch::with_card("yard");
    let wanted = include_str!("expected/report-yard.txt");
    for (words, from, name, shown) in [
        (
            ["report", "-", "sheet.bin"],
            "in.las",
            "in.las under",
            "standard input under",
        ),
        (
            ["report", "in.las", "-"],
            "sheet.bin",
            "under sheet.bin",
            "under standard input",
        ),
    ] {
        let mut command = scratch.command(words);
        command.stdin(File::open(scratch.path(from)).unwrap());
        let wanted = wanted.replacen(name, shown, 1);
        assert_eq!(Ran::of(command.output().unwrap()), Ran::new(0, &wanted, ""));
    }
    assert_eq!(scratch.says("report - -").status, Some(2));
}

#[test]
fn wrong_usage_and_missing_files_have_statuses_of_their_own() {
    let scratch = with_files(&of_classes(&[2]).bytes(), "class 2");
    for (words, status) in [
        ("report in.las", 2),
        ("report in.las sheet.txt out.las", 2),
        ("report in.las missing.txt", 3),
        ("report missing.las sheet.txt", 3),
        ("report in.las in.las", 1),
        ("report --help", 0),
    ] {
        assert_eq!(scratch.says(words).status, Some(status), "{words}");
    }
    assert_eq!(scratch.names(), ["in.las", "sheet.txt"]);
}

#[test]
fn what_goes_out_and_what_stays_agree_with_las_plain() {
    let scratch = Scratch::new();
    for seed in seeds() {
        let mut rng = Rng::new(seed);
        for index in 0..FILES {
            let file = FileSpec::random(&mut rng);
            let sheet = SheetSpec::random_for(&mut rng, &file);
            let bytes = file.bytes();
            scratch.write("in.las", &bytes);
            scratch.write("sheet.bin", sheet.bytes());
            let ran = scratch.says("report --json in.las sheet.bin");
            let json = json::read(&ran.out).expect("JSON");
            let mut out = vec![0; bytes.len()];
            let wanted = las_plain::release(&bytes, &sheet.bytes(), &mut out).unwrap();
            let at = format!("file {index} of seed {seed}");
            assert_eq!(json.at("goes_out/length").number(), wanted.length, "{at}");
            assert_share(&file, &sheet, &json, true);
            assert_share(&file, &sheet, &json, false);
            assert_eq!(json.at("goes_out/points").number(), wanted.points, "{at}");
            let records = json.at("goes_out/records").list().len() as u64;
            assert_eq!(records, wanted.records, "{at}");
        }
    }
}

/// The points and records that go out, or that stay, by the sheet's own description.
fn assert_share(file: &FileSpec, sheet: &SheetSpec, json: &Value, going_out: bool) {
    let share = json.at(if going_out { "goes_out" } else { "stays" });
    assert_points(file, sheet, share, going_out);
    let records = (1..).zip(&file.records);
    let wanted = records.filter(|(_, record)| sheet.keeps_record(record) == going_out);
    let found = share.at("records").list().iter();
    let found = found.map(|record| {
        (
            record.at("number").number(),
            record.at("record_id").number(),
        )
    });
    assert!(
        found.eq(wanted.map(|(number, record)| (number, record.record_id.into()))),
        "{share:?}"
    );
}

/// Points are listed by class, apart from each other if they stay for another reason; of those that go out it is said
/// which flags they have.
fn assert_points(file: &FileSpec, sheet: &SheetSpec, share: &Value, going_out: bool) {
    let points = file
        .points
        .iter()
        .filter(|bytes| sheet.keeps_point(bytes) == going_out);
    let points: Vec<_> = points
        .map(|bytes| las_plain::decode(file.format, file.record_length, bytes).unwrap())
        .collect();
    assert_eq!(share.at("points").number(), points.len() as u64);
    if going_out {
        assert_eq!(listed(share, "points_by_class"), by_class(points.iter()));
        assert_flags(&points, share);
    } else {
        assert_reasons(&points, sheet, share);
    }
}

fn assert_flags(points: &[Point], share: &Value) {
    let count = |has: fn(&Point) -> bool| points.iter().filter(|point| has(point)).count();
    let wanted = [
        ("synthetic", count(|point| point.synthetic)),
        ("key_point", count(|point| point.key_point)),
        ("withheld", 0),
    ];
    for (flag, wanted) in wanted {
        let found = share.at("points_by_flag").at(flag).number();
        assert_eq!(found, wanted as u64, "{flag}");
    }
}

/// Withheld points stay for that; of the others, those of classes that are kept stay since no box holds them.
fn assert_reasons(points: &[Point], sheet: &SheetSpec, share: &Value) {
    type Parted<'a> = (Vec<&'a Point>, Vec<&'a Point>);
    let (withheld, others): Parted<'_> = points.iter().partition(|point| point.withheld);
    let (outside, not_kept): Parted<'_> = others
        .into_iter()
        .partition(|point| sheet.keeps_class(point.classification));
    for (name, points) in [
        ("withheld_points_by_class", withheld),
        ("points_by_class", not_kept),
        ("points_outside_boxes_by_class", outside),
    ] {
        let wanted = by_class(points.into_iter());
        assert_eq!(listed(share, name), wanted, "{name}");
    }
}

/// The numbers of points by class, as a list of the report has them.
fn listed(share: &Value, name: &str) -> Vec<(u64, u64)> {
    let counts = share.at(name).list().iter();
    counts
        .map(|count| (count.at("class").number(), count.at("points").number()))
        .collect()
}

fn by_class<'a>(points: impl Iterator<Item = &'a Point>) -> Vec<(u64, u64)> {
    let mut classes = BTreeMap::new();
    for point in points {
        *classes.entry(u64::from(point.classification)).or_insert(0) += 1;
    }
    classes.into_iter().collect()
}

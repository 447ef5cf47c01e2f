//! `korbishaf list` on random files and sheets, against lines that are worked out from what the files were made of, and
//! against what `korbishaf release` writes.

mod common;

use common::Scratch;
use common::json::{self, Value};
use compare::rng::{Rng, seeds};
use compare::spec::{FileSpec, SheetSpec};

/// How many files are tried for each seed.
const FILES: usize = 100;

/// A line of the list: place, length and what it is.
type Row = (u64, u64, String);

/// The rows that a list should have.
fn rows(file: &FileSpec, sheet: &SheetSpec, runs: bool) -> Vec<Row> {
    let mut rows = Vec::new();
    let mut place = file.header_size();
    for (number, record) in (1..).zip(&file.records) {
        if sheet.keeps_record(record) {
            let (name, id) = (printable(record.cut_user()), record.record_id);
            let words = format!("record {number}, \"{name}\" {id}");
            rows.push((place as u64 + 54, record.payload.len() as u64, words));
        }
        place += record.size();
    }
    let (offset, length) = (file.point_offset() as u64, u64::from(file.record_length));
    for (first, last) in runs_of(file, sheet, runs) {
        let place = offset + (first - 1) * length;
        rows.push((place, (last - first + 1) * length, points(first, last)));
    }
    rows
}

/// The numbers of kept points, from 1, the first and the last of each run.
fn runs_of(file: &FileSpec, sheet: &SheetSpec, joined: bool) -> Vec<(u64, u64)> {
    let mut runs: Vec<(u64, u64)> = Vec::new();
    for (number, point) in (1..).zip(&file.points) {
        if !sheet.keeps_point(point) {
            continue;
        }
        match runs.last_mut() {
            Some((_, last)) if joined && *last + 1 == number => *last = number,
            _ => runs.push((number, number)),
        }
    }
    runs
}

fn points(first: u64, last: u64) -> String {
    if first == last {
        format!("point {first}")
    } else {
        format!("points {first} to {last}")
    }
}

/// A name as it is shown.
fn printable(name: &[u8]) -> String {
    let shown = name.iter().map(|&byte| match byte {
        b'\\' => "\\\\".to_string(),
        b' '..=b'~' => char::from(byte).to_string(),
        _ => format!("\\x{byte:02X}"),
    });
    shown.collect()
}

/// The rows of a text: all lines but the first two and the last.
fn rows_of_text(text: &str) -> Vec<Row> {
    let lines: Vec<&str> = text.lines().collect();
    let shown = lines[1..lines.len() - 1].iter().skip(1);
    let row = |line: &&str| {
        let (place, rest) = line.trim_start().split_once(' ').expect("a place");
        let (length, words) = rest.trim_start().split_once("  ").expect("a length");
        (
            place.parse().unwrap(),
            length.parse().unwrap(),
            words.to_string(),
        )
    };
    shown.map(row).collect()
}

fn rows_of_json(json: &Value) -> Vec<Row> {
    let row = |part: &Value| {
        let number = |name: &str| part.at(name).number();
        let words = match part.at("kind").text() {
            "record" => {
                let name = part.at("user_id").text();
                format!(
                    "record {}, \"{name}\" {}",
                    number("number"),
                    number("record_id")
                )
            }
            "points" => {
                let first = number("first_point");
                points(first, first + number("points") - 1)
            }
            other => panic!("{other}"),
        };
        (number("place"), number("length"), words)
    };
    json.at("lines").list().iter().map(row).collect()
}

/// What a released file has behind its header, but for the headers of records, has to be what the list names.
fn assert_released(file: &[u8], rows: &[Row], out: &[u8]) {
    let mut at = 227;
    for (place, length, words) in rows {
        at += if words.starts_with("record") { 54 } else { 0 };
        let (place, length) = (*place as usize, *length as usize);
        assert!(
            out[at..at + length] == file[place..place + length],
            "{words}"
        );
        at += length;
    }
    assert_eq!(at, out.len());
}

#[test]
fn lists_have_what_goes_out() {
    let scratch = Scratch::new();
    let mut seen = [0; 3];
    for seed in seeds() {
        let mut rng = Rng::new(seed);
        for index in 0..FILES {
            let file = FileSpec::random(&mut rng);
            let sheet = SheetSpec::random_for(&mut rng, &file);
            scratch.write("in.las", file.bytes());
            scratch.write("sheet.bin", sheet.bytes());
            let at = format!("file {index} of seed {seed}");
            for (runs, option) in [(false, ""), (true, "--runs")] {
                let wanted = rows(&file, &sheet, runs);
                let text = scratch.says(&format!("list {option} in.las sheet.bin"));
                assert_eq!((text.status, text.err.as_str()), (Some(0), ""), "{at}");
                assert_eq!(rows_of_text(&text.out), wanted, "{at}");
                let ran = scratch.says(&format!("list --json {option} in.las sheet.bin"));
                let json = json::read(&ran.out).expect("JSON");
                assert_eq!(rows_of_json(&json), wanted, "{at}");
                assert_sums(&text.out, &json, &rows(&file, &sheet, false));
                seen[usize::from(runs)] += wanted.len();
            }
            let ran = scratch.says("release --force in.las sheet.bin out.las");
            assert_eq!(ran.status, Some(0), "{at}");
            let rows = rows(&file, &sheet, false);
            assert_released(&file.bytes(), &rows, &scratch.read("out.las"));
            seen[2] += usize::from(rows.is_empty());
        }
    }
    let [alone, joined, empty] = seen;
    assert!(joined > FILES && alone > joined && empty > 0, "{seen:?}");
}

/// The last line of a text, and the sums in JSON.
fn assert_sums(text: &str, json: &Value, rows: &[Row]) {
    let records = rows.iter().filter(|row| row.2.starts_with("record"));
    let (all, records) = (rows.len() as u64, records.count() as u64);
    let bytes: u64 = rows.iter().map(|row| row.1).sum();
    let counted = |count: u64, what: &str| match count {
        1 => format!("1 {what}"),
        _ => format!("{count} {what}s"),
    };
    let wanted = format!(
        "{}: {}, {}, {}",
        counted(all, "part"),
        counted(records, "record"),
        counted(all - records, "point"),
        counted(bytes, "byte")
    );
    assert_eq!(text.lines().last(), Some(&*wanted));
    for (name, wanted) in [
        ("records", records),
        ("points", all - records),
        ("bytes", bytes),
    ] {
        assert_eq!(json.at(name).number(), wanted, "{name}");
    }
}

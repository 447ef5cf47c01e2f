//! `korbishaf verify --json`, as a process.

mod common;
#[path = "common/known.rs"]
mod known;

use common::Scratch;
use common::json::{self, Value};
use known::{clean, shelf};

fn read(text: &str) -> Value {
    json::read(text).expect("JSON")
}

/// What is printed of four files, of which one is verified, one differs, one is refused and one is not there.
const OF_FOUR: &str = r#"{
  "files": [
    {
      "name": "more.las",
      "verified": true,
      "length": 343,
      "zeros_behind": 12,
      "points": 2,
      "records": 1,
      "release": { "length": 331, "points": 2, "records": 1 },
      "refused": null,
      "not_read": null,
      "first_difference": null,
      "findings": []
    },
    {
      "name": "leak.las",
      "verified": false,
      "length": 371,
      "zeros_behind": null,
      "points": 2,
      "records": 1,
      "release": { "length": 331, "points": 2, "records": 1 },
      "refused": null,
      "not_read": null,
      "first_difference": { "place": 331, "part": "behind the last counted point", "found": "07", "wanted": "00" },
      "findings": [
        {
          "what": "behind_points",
          "place": 331,
          "length": 40,
          "words": "40 bytes behind the last counted point, not all zero: as many as 2 whole point records",
          "whole_points": 2
        }
      ]
    },
    {
      "name": "cut.las",
      "verified": false,
      "length": 290,
      "zeros_behind": null,
      "points": null,
      "records": null,
      "release": null,
      "refused": {
        "number": 7,
        "words": "point offset below the header size or above the file's length (offset 291, length 290)"
      },
      "not_read": null,
      "first_difference": null,
      "findings": []
    },
    {
      "name": "none.las",
      "verified": false,
      "length": null,
      "zeros_behind": null,
      "points": null,
      "records": null,
      "release": null,
      "refused": null,
      "not_read": "No such file or directory",
      "first_difference": null,
      "findings": []
    }
  ],
  "verified": 1,
  "not_verified": 2,
  "not_read": 1
}"#;

#[test]
fn all_that_is_known_of_each_file() {
    let (scratch, _) = shelf();
    scratch.write("more.las", [clean().bytes(), vec![0; 12]].concat());
    let ran = scratch.says("verify --json more.las leak.las cut.las none.las sheet.txt");
    let said = "none.las: not read: No such file or directory\n";
    assert_eq!((ran.status, &*ran.err), (Some(3), said));
    assert_eq!(read(&ran.out), read(OF_FOUR));
}

#[test]
fn the_status_is_the_same_as_without_json() {
    let (scratch, _) = shelf();
    for (files, status) in [("good.las", 0), ("good.las cut.las", 1), ("leak.las x", 3)] {
        let ran = scratch.says(&format!("verify --json {files} sheet.txt"));
        assert_eq!(ran.status, Some(status), "{files}");
    }
    let ran = scratch.says("verify --json good.las none.txt");
    assert_eq!((ran.status, &*ran.out), (Some(3), ""));
}

/// What is printed of the file of a card, in lines and as JSON.
fn of_card() -> (String, Value) {
    let scratch = Scratch::with_card("yard");
    let lines = scratch.says("verify in.las sheet.bin").out;
    let all = read(&scratch.says("verify in.las sheet.bin --json").out);
    let [file] = all.at("files").list() else {
        panic!("there is one file");
    };
    (lines, file.clone())
}

#[test]
fn findings_have_the_words_and_places_of_the_lines() {
    let (lines, file) = of_card();
    let line = |finding: &Value| {
        let (place, words) = (finding.at("place"), finding.at("words"));
        format!("  byte {}: {}", place.number(), words.text())
    };
    let from_json: Vec<_> = file.at("findings").list().iter().map(line).collect();
    let from_text: Vec<_> = lines
        .lines()
        .filter(|line| line.starts_with("  "))
        .collect();
    assert_eq!(from_json, from_text);
    assert_eq!(from_json.len(), 22);
}

/// The members that each kind has by itself, besides place, length and words; in the order of the places.
const OF_KINDS: [&str; 9] = [
    r#"{ "what": "text_tail", "part": "system identifier", "text": "client 4711" }"#,
    r#"{ "what": "wrong_value", "part": "number of points of return 1", "stated": 9, "actual": 3 }"#,
    r#"{ "what": "wrong_value", "part": "min Z", "stated": 6.0, "actual": -7.875 }"#,
    r#"{ "what": "extra_header_bytes", "all_zero": false }"#,
    r#"{ "what": "record_not_kept", "record": 1, "user_id": "yardcrew", "record_id": 1 }"#,
    r#"{ "what": "reserved_bytes", "record": 2, "user_id": "yard", "record_id": 7, "bytes": "BB AA" }"#,
    r#"{ "what": "text_tail", "part": "user ID", "text": "J", "record": 2, "user_id": "yard", "record_id": 7 }"#,
    r#"{ "what": "gap", "all_zero": false }"#,
    r#"{ "what": "points_not_kept", "class": 5, "count": 3, "first_index": 1 }"#,
];

#[test]
fn each_kind_of_finding_has_members_of_its_own() {
    let (_, file) = of_card();
    let first = r#"{ "place": 34, "part": "system identifier",
                     "found": "scanner\\x00client 4711", "wanted": "scanner" }"#;
    assert_eq!(file.at("first_difference"), &read(first));
    let places = [34, 111, 219, 227, 240, 308, 315, 455, 492];
    let lengths = [11, 4, 8, 13, 68, 2, 1, 9, 84];
    for ((members, place), length) in OF_KINDS.into_iter().zip(places).zip(lengths) {
        let mut findings = file.at("findings").list().iter();
        let placed = |finding: &&Value| finding.at("place").number() == place;
        let finding = findings.find(placed).expect("a finding at that place");
        assert_eq!(finding.at("length").number(), length);
        assert!(!finding.at("words").text().is_empty());
        let Value::Object(mut found) = finding.clone() else {
            panic!("a finding is an object");
        };
        found.retain(|(name, _)| !["place", "length", "words"].contains(&name.as_str()));
        assert_eq!(Value::Object(found), read(members));
    }
}

#[test]
fn spaces_at_the_end_of_a_text_are_its_tail() {
    let (scratch, _) = shelf();
    let mut file = clean();
    file.records[0].user = *b"yard            ";
    scratch.write("padded.las", file.bytes());
    let all = read(&scratch.says("verify --json padded.las sheet.txt").out);
    let words = r#"12 bytes behind the end of the user ID of record 1 of 1 (user ID \"yard\", record ID 7)"#;
    let wanted = format!(
        r#"[{{ "what": "text_tail", "place": 233, "length": 12, "words": "{words}: \"            \"",
               "part": "user ID", "text": "            ", "record": 1, "user_id": "yard", "record_id": 7 }}]"#
    );
    assert_eq!(all.at("files/0/findings"), &read(&wanted));
}

#[test]
fn many_findings_in_records_are_counted() {
    let (scratch, _) = shelf();
    let mut file = clean();
    file.records = vec![known::record(b"crew", 1, 0); 40];
    scratch.write("many.las", file.bytes());
    let all = read(&scratch.says("verify --json many.las sheet.txt").out);
    let [file] = all.at("files").list() else {
        panic!("there is one file");
    };
    let wanted = r#"{ "what": "more_in_records", "place": 1955, "length": 432,
                      "words": "8 more findings in the records from here on", "count": 8 }"#;
    assert_eq!(file.at("findings").list().last(), Some(&read(wanted)));
}

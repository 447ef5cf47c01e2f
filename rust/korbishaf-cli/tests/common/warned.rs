//! What `korbishaf report` warns of, in text and in JSON.

#![allow(dead_code, reason = "not every test uses everything")]

use super::common::Scratch;
use super::common::json::{self, Value};
use compare::spec::FileSpec;

/// A folder with the files `in.las` and `sheet.txt`.
pub fn with_files(file: &[u8], sheet: impl AsRef<[u8]>) -> Scratch {
    let scratch = Scratch::new();
    scratch.write("in.las", file);
    scratch.write("sheet.txt", sheet);
    scratch
}

/// The warnings of a report: kinds and words. Text and JSON have to have the same, and the status is 0.
pub fn warnings(file: &FileSpec, sheet: &str) -> Vec<(String, String)> {
    let scratch = with_files(&file.bytes(), sheet);
    let text = scratch.says("report in.las sheet.txt");
    let ran = scratch.says("report --json in.las sheet.txt");
    for ran in [&text, &ran] {
        assert_eq!((ran.status, ran.err.as_str()), (Some(0), ""), "{sheet}");
    }
    let json = json::read(&ran.out).expect("JSON");
    let found: Vec<_> = json.at("warnings").list().iter().map(warning).collect();
    let words = match found.as_slice() {
        [] => "  none\n".to_string(),
        found => found
            .iter()
            .map(|(_, words)| format!("  - {words}\n"))
            .collect(),
    };
    let (_, section) = text.out.split_once("\nWarnings\n").expect("a section");
    assert_eq!(section, words);
    found
}

fn warning(json: &Value) -> (String, String) {
    let [kind, words] = ["kind", "words"].map(|name| json.at(name).text().to_string());
    (kind, words)
}

/// Asserts that a report has this warning and no other.
pub fn warns(file: &FileSpec, sheet: &str, kind: &str, words: &str) {
    assert_eq!(
        warnings(file, sheet),
        [(kind.to_string(), words.to_string())],
        "{sheet}"
    );
}

/// Asserts that a report has no warning.
pub fn is_silent(file: &FileSpec, sheet: &str) {
    assert_eq!(warnings(file, sheet), [], "{sheet}");
}

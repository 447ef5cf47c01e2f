//! `korbishaf geokey`, as a process: keys that are found.

mod common;
#[path = "common/keys.rs"]
mod keys;

use common::{Ran, Scratch, json};
use compare::spec::{FileSpec, projection};
use keys::{KINDS, WARNING, directory_of, folder, prints, scan, with_records};
use std::io::Write;
use std::process::Stdio;

#[test]
fn the_keys_of_a_card_by_number_and_by_name() {
    let scratch = Scratch::with_card("survey");
    for (key, name, value, reads) in [
        ("1024", "GTModelTypeGeoKey", "1 (projected)", 2),
        ("2057", "GeogSemiMajorAxisGeoKey", "6378137.0", 1),
        ("3072", "ProjectedCSTypeGeoKey", "32633", 2),
    ] {
        let line = format!("{key}  {name}  {value}");
        let halving = format!("by halving ({reads} of 3 entries read): the same");
        let wanted = Ran::new(0, &format!("{line}\n{halving}\n"), "");
        for word in [key, name, &name.to_lowercase(), &format!("00{key}")] {
            assert_eq!(scratch.run(["geokey", "in.las", word]), wanted, "{word}");
        }
        let ran = scratch.run(["geokey", "--quiet", "--", "in.las", key]);
        assert_eq!(ran, wanted);
    }
}

#[test]
fn a_card_in_json() {
    let scratch = Scratch::with_card("survey");
    let wanted = include_str!("expected/geokey-survey.json");
    for words in [
        "geokey --json in.las 1024",
        "geokey in.las GTModelTypeGeoKey --json",
    ] {
        assert_eq!(scratch.says(words), Ran::new(0, wanted, ""));
    }
    assert!(json::read(wanted).is_some());
}

#[test]
fn values_of_each_kind() {
    let file = scan(&KINDS);
    let odd = r#"PCSCitationGeoKey  "a\\b \x1B[2J\xFC\x00""#;
    for (key, line, reads) in [
        (0, "unknown key  65535", 4),
        (1024, "GTModelTypeGeoKey  2 (geographic)", 3),
        (1026, "GTCitationGeoKey  \"WGS 84|\"", 2),
        (2049, "GeogCitationGeoKey  \"\"", 3),
        (2054, "GeogAngularUnitsGeoKey  9102 (degree)", 1),
        (2057, "GeogSemiMajorAxisGeoKey  6378137.0", 4),
        (2059, "GeogInvFlatteningGeoKey  NaN", 3),
        (3073, odd, 2),
        (65535, "unknown key  -0.0", 3),
    ] {
        let line = format!("{key}  {line}");
        let halving = format!("by halving ({reads} of 9 entries read): the same");
        prints(&file, key, &[&line, &halving]);
        let shown = folder(&file).says("show in.las").out;
        let cells: Vec<&str> = line.split("  ").collect();
        let is_shown = |row: &str| cells.iter().all(|cell| row.contains(cell));
        assert!(shown.lines().any(is_shown), "{line}");
    }
}

/// All that is printed as JSON for a key of nine, where halving gives the same after so many reads. Name, kind, value,
/// meaning and length are as JSON has them.
fn same_json(key: u16, reads: u64, [name, kind, value, meaning, length]: [&str; 5]) -> String {
    let members = [
        format!("\"kind\": {kind},"),
        format!("\"value\": {value},"),
        format!("\"meaning\": {meaning},"),
        format!("\"text_length\": {length},"),
    ];
    let (plain, halved) = (members.join("\n  "), members.join("\n    "));
    format!(
        r#"{{
  "file": "in.las",
  "key": {key},
  "name": {name},
  {plain}
  "entries": 9,
  "by_halving": {{
    "entries_read": {reads},
    "differs": false,
    {halved}
    "refusal": null
  }}
}}
"#
    )
}

#[test]
fn values_of_each_kind_in_json() {
    let scratch = folder(&scan(&KINDS));
    let (model, flattening) = (r#""GTModelTypeGeoKey""#, r#""GeogInvFlatteningGeoKey""#);
    let (short, double, text) = (r#""short""#, r#""double""#, r#""text""#);
    let odd = r#""a\\\\b \\x1B[2J\\xFC\\x00""#;
    for (key, reads, members) in [
        (0, 4, ["null", short, "65535", "null", "null"]),
        (1024, 3, [model, short, "2", r#""geographic""#, "null"]),
        (2059, 3, [flattening, double, r#""NaN""#, "null", "null"]),
        (65535, 3, ["null", double, "-0.0", "null", "null"]),
        (3073, 2, [r#""PCSCitationGeoKey""#, text, odd, "null", "10"]),
    ] {
        let wanted = same_json(key, reads, members);
        let ran = scratch.says(&format!("geokey --json in.las {key}"));
        assert_eq!(ran, Ran::new(0, &wanted, ""));
        assert!(json::read(&wanted).is_some());
    }
}

#[test]
fn a_long_text_is_cut_as_show_cuts_it() {
    for (length, more) in [(255, ""), (256, " and more, 256 bytes in all")] {
        let keys = directory_of(&[[1026, 34737, length, 0]]);
        let texts = projection(34737, vec![0xFC; length.into()]);
        let file = with_records([keys, texts]);
        let text = "\\xFC".repeat(255);
        let line = format!("1026  GTCitationGeoKey  \"{text}\"{more}");
        let halving = "by halving (1 of 1 entry read): the same";
        prints(&file, 1026, &[&line, halving]);
        let scratch = folder(&file);
        let shown = scratch.says("show in.las").out;
        assert!(shown.ends_with(&format!("\n  {line}\n")), "{shown}");
        let found = json::read(&scratch.says("geokey --json in.las 1026").out).expect("JSON");
        assert_eq!(found.at("value").text(), text);
        assert_eq!(found.at("text_length").number(), length.into());
    }
}

/// The key's first entry counts, whatever halving gives. Of two entries the second is read first, and of three that
/// fall only the middle is found.
#[test]
fn a_difference_is_a_warning() {
    let of_two = "1 of 2 entries read";
    for (entries, value, reads, halved) in [
        (
            &[[1024, 0, 1, 2], [1000, 0, 1, 0], [7, 0, 1, 0]][..],
            "2 (geographic)",
            "2 of 3 entries read",
            "refused 42: the key is not found in the GeoKey directory",
        ),
        (
            &[[1024, 0, 1, 2], [1024, 0, 1, 1]],
            "2 (geographic)",
            of_two,
            "1 (projected)",
        ),
        (
            &[[1024, 0, 1, 2], [1024, 0, 2, 2]],
            "2 (geographic)",
            of_two,
            "refused 44: a short or a double has a count other than 1",
        ),
        (
            &[[1024, 34736, 1, 0], [1024, 34736, 1, 1]],
            "0.0",
            of_two,
            "-0.0",
        ),
        (
            &[[1024, 34737, 3, 0], [1024, 34737, 3, 1]],
            "\"aab\"",
            of_two,
            "\"aba\"",
        ),
    ] {
        let line = format!("1024  GTModelTypeGeoKey  {value}");
        let halving = format!("by halving ({reads}): {halved}");
        prints(&scan(entries), 1024, &[&line, &halving, WARNING]);
    }
}

/// Texts that are the same as far as they are shown.
#[test]
fn a_difference_behind_what_is_shown_is_a_warning() {
    let keys = directory_of(&[[1026, 34737, 300, 0], [1026, 34737, 300, 1]]);
    let mut texts = vec![b'x'; 301];
    texts[300] = b'y';
    let shown = format!("\"{}\" and more, 300 bytes in all", "x".repeat(255));
    let line = format!("1026  GTCitationGeoKey  {shown}");
    let halving = format!("by halving (1 of 2 entries read): {shown}");
    let file = with_records([keys, projection(34737, texts)]);
    prints(&file, 1026, &[&line, &halving, WARNING]);
}

/// Keys that do not rise, of which halving finds the first entry, or one with the same value.
#[test]
fn the_same_value_is_no_difference() {
    for (entries, value, reads) in [
        (
            &[[7, 0, 1, 0], [1024, 0, 1, 5], [7, 0, 1, 0]][..],
            "5",
            "1 of 3",
        ),
        (&[[1024, 0, 1, 5], [1024, 0, 1, 5]], "5", "1 of 2"),
        (&[[1024, 34736, 1, 2], [1024, 34736, 1, 2]], "NaN", "1 of 2"),
        (
            &[[1024, 34737, 3, 0], [1024, 34737, 3, 3]],
            "\"aab\"",
            "1 of 2",
        ),
    ] {
        let line = format!("1024  GTModelTypeGeoKey  {value}");
        let halving = format!("by halving ({reads} entries read): the same");
        prints(&scan(entries), 1024, &[&line, &halving]);
    }
}

#[test]
fn differences_in_json() {
    for (entries, wanted) in [
        (
            [[1024, 0, 1, 2], [1000, 0, 1, 0], [1024, 0, 1, 1]],
            include_str!("expected/geokey-differs.json"),
        ),
        (
            [[1024, 34737, 7, 6], [1000, 0, 1, 0], [7, 0, 1, 0]],
            include_str!("expected/geokey-missed.json"),
        ),
    ] {
        let ran = folder(&scan(&entries)).says("geokey --json in.las 1024");
        assert_eq!(ran, Ran::new(0, wanted, ""));
    }
}

/// As many keys as a directory has room for.
#[test]
fn a_directory_of_8190_keys() {
    let keys: Vec<_> = (0..8190).map(|at| [8 * at + 3, 0, 1, at]).collect();
    let scratch = folder(&with_records([directory_of(&keys)]));
    let all = "of 8190 entries read): the same\n";
    for (place, reads) in [
        (4095, 1),
        (2047, 2),
        (6143, 2),
        (0, 13),
        (1, 12),
        (8188, 13),
        (8189, 12),
    ] {
        let key = 8 * place + 3;
        let wanted = format!("{key}  unknown key  {place}\nby halving ({reads} {all}");
        let ran = scratch.says(&format!("geokey in.las {key}"));
        assert_eq!(ran, Ran::new(0, &wanted, ""));
    }
    for (key, reads) in [(0, 13), (32770, 13), (65535, 12)] {
        let refused = "in.las: refused 42: the key is not found in the GeoKey directory";
        let wanted = format!("{refused} (key {key})\nby halving ({reads} {all}");
        let ran = scratch.says(&format!("geokey in.las {key}"));
        assert_eq!(ran, Ran::new(1, "", &wanted));
    }
}

#[test]
fn a_dash_is_standard_input() {
    let line = "1024  GTModelTypeGeoKey  2 (geographic)";
    let found = format!("{line}\nby halving (3 of 9 entries read): the same\n");
    let refused = "standard input: refused 40: there is no GeoKey directory\n";
    for (file, wanted) in [
        (scan(&KINDS), Ran::new(0, &found, "")),
        (FileSpec::bare(0), Ran::new(1, "", refused)),
    ] {
        let scratch = Scratch::new();
        let mut command = scratch.command(["geokey", "-", "1024"]);
        command
            .stdin(Stdio::piped())
            .stdout(Stdio::piped())
            .stderr(Stdio::piped());
        let mut child = command.spawn().unwrap();
        let mut input = child.stdin.take().unwrap();
        input.write_all(&file.bytes()).unwrap();
        drop(input);
        assert_eq!(Ran::of(child.wait_with_output().unwrap()), wanted);
    }
}

#[test]
fn the_help_shows_what_is_printed() {
    let scratch = Scratch::with_card("survey");
    let printed = scratch.says("geokey in.las ProjectedCSTypeGeoKey").out;
    let indented: String = printed.lines().map(|line| format!("  {line}\n")).collect();
    let help = scratch.says("help geokey").out;
    assert!(help.contains(&format!("\n\n{indented}\n")), "{help}");
}

//! `korbishaf geokey`, as a process: refusals, and wrong usage.

mod common;
#[path = "common/keys.rs"]
mod keys;

use common::{Ran, Scratch};
use compare::damage::spoil;
use compare::spec::{FileSpec, directory, projection};
use keys::{KINDS, WARNING, directory_of, folder, refuses, scan, with_records};

/// No entry is read, and nothing is said of halving.
#[test]
fn directories_that_are_absent_or_bad() {
    let absent = "in.las: refused 40: there is no GeoKey directory";
    refuses(&FileSpec::bare(0), 1024, &[absent]);
    refuses(&with_records([projection(34736, [0; 8])]), 1024, &[absent]);
    let bad = "in.las: refused 41: the GeoKey directory is too short or does not begin 1, 1, 0";
    let good = directory_of(&[[1024, 0, 1, 1]]);
    for payload in [
        vec![1, 0, 1, 0, 0, 0, 0],
        directory([1, 2, 0, 1], &[[1024, 0, 1, 1]]),
        directory([1, 1, 0, 2], &[[1024, 0, 1, 1]]),
    ] {
        // only the first directory counts
        let file = with_records([projection(34735, payload), good.clone()]);
        refuses(&file, 1024, &[bad]);
    }
}

#[test]
fn keys_that_are_not_there() {
    let words = "in.las: refused 42: the key is not found in the GeoKey directory";
    for (entries, key, about, reads) in [
        (
            &[][..],
            1024,
            "key 1024, GTModelTypeGeoKey",
            "0 of 0 entries",
        ),
        (
            &KINDS[..1],
            1024,
            "key 1024, GTModelTypeGeoKey",
            "1 of 1 entry",
        ),
        (
            &KINDS[..3],
            1025,
            "key 1025, GTRasterTypeGeoKey",
            "2 of 3 entries",
        ),
        (
            &KINDS,
            2055,
            "key 2055, GeogAngularUnitSizeGeoKey",
            "4 of 9 entries",
        ),
        (&KINDS, 9999, "key 9999", "3 of 9 entries"),
    ] {
        let halving = format!("by halving ({reads} read): the same");
        let refused = format!("{words} ({about})");
        refuses(&scan(entries), key, &[&refused, &halving]);
    }
}

#[test]
fn keys_that_cannot_be_read() {
    let absent = "the parameter record that the key's location names is absent";
    let past = "the key's value runs past its parameter record";
    for (entry, number, words) in [
        (
            [34767, 1, 0],
            43,
            "the key's location is not 0, 34736 or 34737",
        ),
        (
            [0, 2, 0],
            44,
            "a short or a double has a count other than 1",
        ),
        (
            [34736, 0, 0],
            44,
            "a short or a double has a count other than 1",
        ),
        ([34737, 1, 0], 45, absent),
        ([34736, 1, 1], 46, past),
    ] {
        let [location, count, value] = entry;
        let entries = [
            [7, 0, 1, 0],
            [1025, location, count, value],
            [1026, 0, 1, 0],
        ];
        let file = with_records([directory_of(&entries), projection(34736, [0; 15])]);
        let refused = format!("in.las: refused {number}: {words} (key 1025, GTRasterTypeGeoKey)");
        let halving = "by halving (1 of 3 entries read): the same";
        refuses(&file, 1025, &[&refused, halving]);
    }
}

/// The key's first entry counts, and a later one that halving finds is no answer.
#[test]
fn a_difference_is_a_warning() {
    let refused = "in.las: refused 44: a short or a double has a count other than 1 (key 1024, GTModelTypeGeoKey)";
    for (entries, halving) in [
        (
            &[[1024, 0, 2, 1], [1024, 0, 1, 1]][..],
            "by halving (1 of 2 entries read): 1 (projected)",
        ),
        (
            &[[1024, 0, 2, 1], [1024, 1, 1, 1]],
            "by halving (1 of 2 entries read): refused 43: the key's location is not 0, 34736 or 34737",
        ),
        (
            &[[1024, 0, 2, 1], [7, 0, 1, 1], [7, 0, 1, 1]],
            "by halving (2 of 3 entries read): refused 42: the key is not found in the GeoKey directory",
        ),
    ] {
        refuses(&scan(entries), 1024, &[refused, halving, WARNING]);
    }
    let halving = "by halving (1 of 2 entries read): the same";
    let same = scan(&[[1024, 0, 2, 1], [1024, 34736, 3, 1]]);
    refuses(&same, 1024, &[refused, halving]);
}

#[test]
fn files_that_do_not_pass() {
    let good = scan(&KINDS).bytes();
    let scratch = Scratch::new();
    for number in 1..=10 {
        let mut file = good.clone();
        spoil(&mut file, number);
        scratch.write("in.las", &file);
        let shown = scratch.says("show in.las");
        assert!(
            shown
                .err
                .starts_with(&format!("in.las: refused {number}: "))
        );
        for words in ["geokey in.las 1024", "geokey --json in.las 9999"] {
            assert_eq!(scratch.says(words), shown);
        }
    }
    let none = Ran::new(3, "", "none.las: No such file or directory\n");
    assert_eq!(scratch.says("geokey none.las 1024"), none);
}

/// The file is not looked at.
#[test]
fn words_that_are_no_key() {
    let expected = "expected a key from 0 to 65535 or a key's name, found";
    let usage =
        "usage: korbishaf geokey [--quiet] [--json] FILE KEY ('korbishaf help geokey' says more)";
    for (key, found) in [
        ("65536", "'65536'"),
        ("1024.0", "'1024.0'"),
        ("+1024", "'+1024'"),
        ("", "''"),
        ("-", "'-'"),
        ("in.las", "'in.las'"),
        ("\x1B", "'\\x1B'"),
        ("Citation", "'Citation'"),
        (
            "GTModelType",
            "'GTModelType'; did you mean 'GTModelTypeGeoKey'?",
        ),
    ] {
        let ran = Scratch::new().run(["geokey", "none.las", key]);
        let said = format!("korbishaf geokey: {expected} {found}\n{usage}\n");
        assert_eq!(ran, Ran::new(2, "", &said));
    }
    let ran = Scratch::new().run(["geokey", "none.las", "--", "-1"]);
    assert!(ran.err.contains("found '-1'\n"), "{}", ran.err);
}

#[test]
fn wrong_usage_has_a_status_of_its_own() {
    let scratch = folder(&scan(&KINDS));
    for words in [
        "geokey",
        "geokey in.las",
        "geokey in.las 1024 1026",
        "geokey 1024 in.las",
        "geokey in.las -1",
        "geokey --runs in.las 1024",
        "geokey --force in.las 1024",
        "geokey -o out in.las 1024",
    ] {
        let ran = scratch.says(words);
        assert_eq!((ran.status, ran.out.as_str()), (Some(2), ""), "{words}");
    }
    assert_eq!(scratch.says("geokey --help").status, Some(0));
    assert_eq!(scratch.names(), ["in.las"]);
}

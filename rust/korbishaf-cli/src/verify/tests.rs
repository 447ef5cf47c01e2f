//! Many random and damaged files: nothing panics, the verdict is the definition's, and all that differs is explained.

use super::findings::What;
use super::{Facts, Verdict};
use compare::damage::damage;
use compare::rng::{Rng, seeds};
use compare::spec::{FileSpec, SheetSpec};
use korbishaf::{Sheet, bytes};
use std::collections::BTreeMap;

/// How many files are tried for each of the two seeds.
const FILES: usize = 10_000;

/// A file and a sheet: the file is often a released one, and often damaged.
fn case(rng: &mut Rng) -> (Vec<u8>, Sheet) {
    let spec = FileSpec::random(rng);
    let sheet = Sheet::from_bytes(SheetSpec::random_for(rng, &spec).bytes()).unwrap();
    let mut file = spec.bytes();
    if rng.chance(70) {
        file = korbishaf::release_to_vec(&file, &sheet).unwrap();
    }
    match rng.below(6) {
        0 => damage(rng, &mut file),
        1..4 => {
            let place = rng.below(file.len());
            file[place] ^= 1 << rng.below(8);
        }
        4 => file.extend(rng.some_bytes(90)),
        _ => file.resize(file.len() + rng.below(9), 0),
    }
    (file, sheet)
}

/// The facts, from the released bytes of one sheet and explained by another.
fn facts(file: &[u8], sheet: &Sheet, explained_by: &Sheet) -> Facts {
    let mut out = vec![0; file.len()];
    match bytes::release(file, sheet.as_bytes(), &mut out) {
        Ok(released) => {
            out.truncate(released.length);
            Facts::released("a.las", file, (&out, released), explained_by)
        }
        Err(refused) => Facts::refused("a.las", file, &refused),
    }
}

/// The definition, in the theorem's own form: a release into an output of the file's own length gives the file back.
fn gives_itself(file: &[u8], sheet: &Sheet) -> bool {
    let mut out = vec![0xEE; file.len()];
    bytes::release(file, sheet.as_bytes(), &mut out).is_ok() && out == file
}

fn each(mut check: impl FnMut(&mut Rng, &[u8], &Sheet)) {
    for seed in seeds() {
        let mut rng = Rng::new(seed);
        for _ in 0..FILES {
            let (file, sheet) = case(&mut rng);
            check(&mut rng, &file, &sheet);
        }
    }
}

#[test]
fn the_verdict_is_the_definitions() {
    let mut seen = [0; 3];
    each(|_, file, sheet| {
        let facts = facts(file, sheet, sheet);
        assert_eq!(facts.is_verified(), gives_itself(file, sheet));
        match facts.verdict {
            Verdict::Verified { .. } => seen[0] += 1,
            Verdict::Refused { .. } => seen[1] += 1,
            _ => seen[2] += 1,
        }
    });
    assert!(seen.iter().all(|&count| count > 1000), "{seen:?}");
}

#[test]
fn the_verdict_does_not_depend_on_the_findings() {
    let mut changed = 0;
    each(|rng, file, sheet| {
        let other = Sheet::from_bytes(SheetSpec::random(rng).bytes()).unwrap();
        let (right, wrong) = (facts(file, sheet, sheet), facts(file, sheet, &other));
        assert_eq!(right.is_verified(), wrong.is_verified());
        changed += usize::from(right.lines() != wrong.lines());
    });
    assert!(changed > 1000, "{changed}");
}

#[test]
fn all_that_differs_is_explained() {
    let mut seen = BTreeMap::new();
    each(|_, file, sheet| {
        let Verdict::Differs {
            released,
            difference,
            findings,
            ..
        } = facts(file, sheet, sheet).verdict
        else {
            return;
        };
        let mut out = korbishaf::release_to_vec(file, sheet).unwrap();
        assert_eq!(released.length, out.len());
        out.resize(file.len(), 0);
        let mut pairs = file.iter().zip(&out);
        let first = pairs.position(|(found, wanted)| found != wanted);
        assert_eq!(Some(difference.place), first);
        let (found, wanted) = (difference.found.to_string(), difference.wanted.to_string());
        assert_ne!(found, wanted, "{}", difference.part);
        assert_ne!(difference.part, "before the end of the points");
        // every difference has a reason that is named
        assert!(!findings.is_empty(), "{difference:?}");
        assert!(findings.is_sorted_by_key(|finding| finding.place));
        for finding in findings {
            assert!(finding.place < file.len() && finding.length > 0);
            assert!(finding.length <= file.len() - 26);
            *seen.entry(kind(&finding.what)).or_insert(0) += 1;
        }
    });
    // more than 32 findings in records do not come by chance
    assert_eq!(seen.len(), 10, "{seen:?}");
}

#[test]
fn lines_and_json_are_made_of_any_file() {
    each(|_, file, sheet| {
        let facts = facts(file, sheet, sheet);
        let lines = facts.lines();
        let printable = |letter: char| (' '..='~').contains(&letter);
        assert!(lines.lines().all(|line| line.chars().all(printable)));
        assert!(lines.starts_with("a.las: ") && lines.ends_with('\n'));
        let json = facts.json().to_string();
        for line in lines.lines().skip(1) {
            let (_, words) = line.split_once(": ").unwrap();
            let words = crate::json::Json::text(words).to_string();
            assert!(json.contains(&format!("\"words\": {words}")), "{line}");
        }
    });
}

/// The name of a kind, by which kinds are counted.
fn kind(what: &What) -> &'static str {
    match what {
        What::TextTail { .. } => "tail",
        What::WrongValue { .. } => "wrong value",
        What::ExtraHeader { .. } => "extra header",
        What::RecordNotKept { .. } => "record",
        What::Reserved { .. } => "reserved",
        What::MoreInRecords { .. } => "more",
        What::Gap { .. } => "gap",
        What::PointsNotKept { .. } => "points",
        What::PointsWithheld { .. } => "withheld",
        What::PointsOutside { .. } => "outside",
        What::BehindPoints { .. } => "behind",
    }
}

//! Reports, lists, keys and what `show` prints, of many thousands of damaged files and sheets.

#[path = "../../tests/common/json.rs"]
mod json;

use super::geokey::lookup::Lookup;
use super::list::parts::Cutting;
use super::report::plan::Plan;
use super::{geokey, list, report, show};
use crate::facts::Facts;
use crate::facts::boxes::Boxes;
use crate::keep_sheet::KeepSheet;
use crate::progress::Progress;
use crate::releasing::Stopped;
use compare::damage::damage;
use compare::rng::{Rng, seeds};
use compare::spec::{FileSpec, SheetSpec};
use korbishaf::Error;
use std::io::{self, Write};

/// How many files are tried for each seed.
const FILES: usize = 10_000;

/// A file of anything that a file may have. Half of them are damaged, and some anywhere but in the header.
fn random_file(rng: &mut Rng) -> Vec<u8> {
    let mut file = FileSpec::random(rng).bytes();
    if rng.chance(50) {
        damage(rng, &mut file);
    }
    if rng.chance(30) && file.len() > 227 {
        for _ in 0..rng.from_to(1, 20) {
            let place = rng.from_to(227, file.len() - 1);
            file[place] = rng.pick(&[0, 1, 0x1B, 0x7F, 0x87, 0xFF]);
        }
    }
    file
}

fn random_sheet(rng: &mut Rng) -> Vec<u8> {
    let mut sheet = SheetSpec::random(rng).bytes();
    if rng.chance(20) && !sheet.is_empty() {
        let place = rng.below(sheet.len());
        sheet[place] = rng.byte();
    }
    sheet
}

/// The number of a refusal, 0 where there is something to write as text and as JSON. Both are looked at.
fn number_of<T>(
    made: Result<T, Error>,
    write: impl Fn(&mut dyn Write, &T, bool) -> io::Result<()>,
) -> u64 {
    let made = match made {
        Ok(made) => made,
        Err(refused) => return refused.number(),
    };
    let [text, json] = [false, true].map(|as_json| {
        let mut out = Vec::new();
        write(&mut out, &made, as_json).expect("a vector takes all that is written to it");
        String::from_utf8(out).expect("UTF-8")
    });
    assert_is_plain(&text);
    assert!(json.is_ascii() && json::read(&json).is_some(), "{json}");
    0
}

/// Asserts that a text is printable ASCII, and has no blanks at the end of a line.
fn assert_is_plain(text: &str) {
    let mut bytes = text.bytes();
    let is_plain = bytes.all(|byte| byte == b'\n' || (b' '..=b'~').contains(&byte));
    assert!(is_plain, "{text}");
    assert!(!text.lines().any(|line| line.ends_with(' ')), "{text}");
}

#[test]
fn every_file_and_sheet_is_shown_reported_and_listed_or_refused() {
    std::thread::scope(|scope| {
        for seed in seeds() {
            scope.spawn(move || try_files(seed));
        }
    });
}

/// Files are shown and, with sheets, reported on and listed in turn.
fn try_files(seed: u64) {
    let mut rng = Rng::new(seed);
    let (mut shown, mut reported) = (0, 0);
    for index in 0..FILES / 2 {
        let file = random_file(&mut rng);
        let (found, wanted) = (number_shown(&file), korbishaf::check_file(&file));
        assert_eq!(found, number(wanted), "file {index} of seed {seed}");
        shown += usize::from(found == 0);
        try_keys(&file);

        let (file, sheet) = (random_file(&mut rng), random_sheet(&mut rng));
        let released = korbishaf::bytes::release_to_vec(&file, &sheet);
        let (found, wanted) = (number_reported(&file, &sheet), released.map(|_| ()));
        assert_eq!(found, number(wanted), "sheet {index} of seed {seed}");
        for runs in [false, true] {
            let listed = number_listed(&file, &sheet, runs);
            assert_eq!(listed, found, "sheet {index} of seed {seed}");
        }
        reported += usize::from(found == 0);
    }
    assert!((FILES / 4..FILES / 2).contains(&shown), "{shown}");
    assert!((FILES / 6..shown).contains(&reported), "{reported}");
}

/// The keys that random directories have, and one that they do not have.
fn try_keys(file: &[u8]) {
    for key in 1024..=1031 {
        let wanted = number(korbishaf::geokey(file, key).map(|_| ()));
        assert_eq!(number_of_key(file, key), wanted);
    }
}

/// The number of a refusal, 0 where there is none.
fn number(answer: Result<(), Error>) -> u64 {
    answer.map_or_else(|refused| refused.number(), |()| 0)
}

fn number_shown(file: &[u8]) -> u64 {
    let facts = Facts::of(file, &Boxes::none(), &Progress::none());
    number_of(facts, |out, facts, json| {
        show::write(out, "in.las", facts, json)
    })
}

/// What is said of a key that is refused is looked at too.
fn number_of_key(file: &[u8], key: u16) -> u64 {
    let lookup = Lookup::of(file, key);
    let found = lookup.and_then(|lookup| {
        if let Err(refused) = lookup.plain {
            assert_is_plain(&geokey::said("in.las", &lookup, false).unwrap_err());
            return Err(refused);
        }
        Ok(lookup)
    });
    number_of(found, |out, lookup, json| {
        let said = geokey::said("in.las", lookup, json).expect("a key that is found");
        out.write_all(said.as_bytes())
    })
}

fn number_reported(file: &[u8], sheet: &[u8]) -> u64 {
    let sheet = KeepSheet::of_bytes("sheet.bin", sheet.to_vec());
    let plan = Plan::of(file, &sheet, &Progress::none());
    number_of(plan, |out, plan, json| {
        report::write(out, "in.las", plan, json)
    })
}

fn number_listed(file: &[u8], sheet: &[u8], runs: bool) -> u64 {
    let lines = match list::lines::of(file, sheet, &Progress::none()) {
        Ok(lines) => lines,
        Err(Stopped::Refused(refused)) => return refused.number(),
        Err(Stopped::Failed(failure)) => panic!("{}", failure.words()),
    };
    let cutting = Cutting::of(file, &lines, runs);
    number_of(cutting, |out, cutting, json| {
        list::write(out, ["in.las", "sheet.bin"], cutting, json)
    })
}

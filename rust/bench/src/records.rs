//! Releases of many records, all kept: the time for each, with zeros and with spaces behind their short texts.

pub mod pairs;

use compare::spec::{FileSpec, LineSpec, RecordSpec, SheetSpec};
use korbishaf::sys::las_released;

use crate::builds::Builds;
use crate::each;
use crate::library::Library;
use crate::releases::{library, plain};
use crate::timing::{Side, medians};

const RECORDS: usize = 10_000;
const ROUNDS: usize = 301;
const RECORD_ID: u16 = 7;

/// What stands behind the texts of a file and of its sheet.
const PADDINGS: [(&str, u8); 2] = [("zeros behind", 0), ("spaces behind", b' ')];

/// Times releases of records, and prints the figures.
pub fn compare(builds: &Builds) {
    println!(
        "records: medians in ns for each of {RECORDS} in a release, and what ours takes of the others' times"
    );
    let table = each::start(builds.before.is_some());
    for input in Input::all() {
        assert_same(builds, &input);
        let mut room = vec![0; input.file.len()];
        let times = medians(ROUNDS, &sides(builds, &input), &mut room);
        table.row(&each::cells(input.name, RECORDS, &times));
    }
}

/// las_plain, then each build.
fn sides<'a>(builds: &'a Builds, input: &'a Input) -> Vec<Side<'a>> {
    let libraries = builds.all().map(|build| input.side(build));
    let plain = plain(&input.file, &input.sheet, input.file.len());
    [plain].into_iter().chain(libraries).collect()
}

/// A file and its sheet, by what stands behind their texts.
struct Input {
    name: &'static str,
    file: Vec<u8>,
    sheet: Vec<u8>,
}

impl Input {
    fn all() -> [Self; 2] {
        PADDINGS.map(|(name, padding)| Self {
            name,
            file: file(RECORDS, padding),
            sheet: sheet(padding),
        })
    }

    /// The release by a build.
    fn side<'a>(&'a self, build: &'a Library) -> Side<'a> {
        library(build, &self.file, &self.sheet, self.file.len())
    }

    /// What a build writes over this junk. It has to keep every record.
    fn released(&self, build: &Library, junk: u8) -> Vec<u8> {
        let numbers = las_released {
            number: 0,
            length: self.file.len() as u64,
            points: 0,
            records: RECORDS as u64,
        };
        let mut out = vec![junk; self.file.len()];
        assert_eq!(build.release(&self.file, &self.sheet, &mut out), numbers);
        out
    }
}

/// A file of records that the sheet keeps, and no points.
pub fn file(records: usize, padding: u8) -> Vec<u8> {
    let record = RecordSpec {
        reserved: [0; 2],
        user: text(b"user", padding),
        record_id: RECORD_ID,
        description: text(b"text", padding),
        payload: vec![1; 8],
    };
    FileSpec {
        system: text(b"system", padding),
        software: text(b"software", padding),
        records: vec![record; records],
        ..FileSpec::bare(1)
    }
    .bytes()
}

/// The name is padded as in the file: a build that tells spaces from zeros keeps the records too.
pub fn sheet(padding: u8) -> Vec<u8> {
    let line = LineSpec::Record(text(b"user", padding), RECORD_ID);
    SheetSpec::new([line]).bytes()
}

fn text<const N: usize>(text: &[u8], padding: u8) -> [u8; N] {
    let mut field = [padding; N];
    field[..text.len()].copy_from_slice(text);
    field
}

/// Asserts that all sides keep every record, and that ours writes what las_plain writes; an earlier build may write the
/// spaces too.
fn assert_same(builds: &Builds, input: &Input) {
    let mut expected = vec![0x77; input.file.len()];
    let plain = las_plain::release(&input.file, &input.sheet, &mut expected);
    let plain = plain.expect("the file is released");
    let numbers = (plain.length as usize, plain.records as usize);
    assert_eq!(numbers, (input.file.len(), RECORDS));
    if let Some(before) = &builds.before {
        input.released(before, 0xEE);
    }
    let same = input.released(&builds.ours, 0xEE) == expected;
    assert!(same, "the outputs differ");
}

#[cfg(test)]
mod tests {
    use super::*;

    #[test]
    fn every_record_is_kept_and_both_paddings_leave_as_zeros() {
        let released = PADDINGS.map(|(_, padding)| {
            let (file, sheet) = (file(3, padding), sheet(padding));
            let mut out = vec![0xEE; file.len()];
            let answer = las_plain::release(&file, &sheet, &mut out);
            assert_eq!(answer.expect("the file is released").records, 3);
            out
        });
        assert_eq!(released[0], file(3, 0));
        assert_eq!(released[1], released[0]);
    }
}

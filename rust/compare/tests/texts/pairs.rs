//! Files that differ in one text: their releases are the same exactly where the cut texts are, or where the text is not
//! released.

use std::collections::BTreeSet;

use compare::compared::Compared;
use compare::rng::{FIXED_SEED, Rng};
use compare::rooms::{Answer, release};
use compare::spec::{FileSpec, LineSpec, RecordSpec, SheetSpec, padded, projection};

use super::table::{self, Case};

const ID: u16 = 7;
/// The name of a kept record that is none of the table's.
const KEPT: &[u8] = b"kept name";

/// What puts a text into a field of `N` bytes.
type Put<const N: usize> = fn(&mut FileSpec, [u8; N]);

const HEADER_TEXTS: [Put<32>; 2] = [
    |spec, text| spec.system = text,
    |spec, text| spec.software = text,
];

fn put_user(spec: &mut FileSpec, text: [u8; 16]) {
    spec.records[0].user = text;
}

fn put_description(spec: &mut FileSpec, text: [u8; 32]) {
    spec.records[0].description = text;
}

/// A record that is kept or not by its record ID, one that is kept, and points of which one is kept.
fn base(record_id: u16) -> FileSpec {
    let record = |record_id| RecordSpec {
        user: padded(KEPT),
        ..projection(record_id, b"payload")
    };
    FileSpec {
        records: vec![record(record_id), record(ID)],
        points: vec![vec![2; 20], vec![3; 20]],
        ..FileSpec::bare(0)
    }
}

/// Keeps class 2 and the records of these names.
fn sheet<'a>(names: impl IntoIterator<Item = &'a [u8]>) -> Vec<u8> {
    let names = names.into_iter();
    let lines = names.map(|name| LineSpec::Record(padded(name), ID));
    let all = [LineSpec::Classes(2, 2)].into_iter().chain(lines);
    SheetSpec::new(all.collect::<Vec<_>>()).bytes()
}

/// The releases of the file with each case in this field.
fn releases<const N: usize>(
    put: Put<N>,
    cases: &[Case<N>],
    spec: &FileSpec,
    sheet: &[u8],
) -> Vec<[Answer; 3]> {
    let mut compared = Compared::new();
    let mut rng = Rng::new(FIXED_SEED);
    let release_one = |case: &Case<N>| {
        let mut spec = spec.clone();
        put(&mut spec, case.field);
        compared.case(case.field.escape_ascii().to_string());
        release(&mut compared, &mut rng, &spec.bytes(), sheet)
    };
    cases.iter().map(release_one).collect()
}

/// Every two releases are the same exactly where the cut texts are.
fn assert_shows_its_cut_text<const N: usize>(put: Put<N>, cases: &[Case<N>], sheet: &[u8]) {
    let releases = releases(put, cases, &base(ID), sheet);
    let mut reached = [0; 2];
    for (one, answers) in cases.iter().zip(&releases) {
        for (other, others) in cases.iter().zip(&releases) {
            let same = one.cut == other.cut;
            assert_eq!(answers[2], others[2]);
            let fields = [one, other].map(|case| case.field.escape_ascii());
            assert_eq!(answers == others, same, "{} and {}", fields[0], fields[1]);
            reached[usize::from(same)] += u32::from(one.field != other.field);
        }
    }
    assert!(reached.iter().all(|&times| times > 20), "{reached:?}");
}

/// Every release is that of the first case.
fn assert_does_not_show<const N: usize>(put: Put<N>, spec: &FileSpec, sheet: &[u8]) {
    let cases = table::few();
    let releases = releases(put, &cases, spec, sheet);
    let fields: BTreeSet<[u8; N]> = cases.iter().map(|case| case.field).collect();
    assert!(fields.len() > 200);
    for (case, answers) in cases.iter().zip(&releases) {
        assert_eq!(*answers, releases[0], "{}", case.field.escape_ascii());
    }
}

#[test]
fn both_header_texts_show_by_their_cut_texts_alone() {
    for put in HEADER_TEXTS {
        assert_shows_its_cut_text(put, &table::few(), &sheet([KEPT]));
        assert_shows_its_cut_text(put, &table::few(), &[]);
    }
}

#[test]
fn texts_of_a_kept_record_show_by_their_cut_texts_alone() {
    assert_shows_its_cut_text(put_description, &table::few(), &sheet([KEPT]));
    let mut cases = table::few::<16>();
    cases.sort_by(|one, other| one.cut.cmp(&other.cut));
    let names: Vec<&[Case<16>]> = cases.chunk_by(|one, other| one.cut == other.cut).collect();
    // A sheet of 64 lines has no room for all names at once.
    for names in names.chunks(40) {
        let on_sheet = names.iter().map(|same| same[0].cut.as_slice());
        let sheet = sheet(on_sheet.chain([KEPT]));
        assert_shows_its_cut_text(put_user, &names.concat(), &sheet);
    }
}

#[test]
fn texts_of_a_record_that_is_not_kept_do_not_show() {
    for sheet in [sheet([KEPT]), Vec::new()] {
        assert_does_not_show(put_user, &base(ID), &sheet);
        assert_does_not_show(put_user, &base(ID + 1), &sheet);
        assert_does_not_show(put_description, &base(ID + 1), &sheet);
    }
}

/// Two texts, and whether a release shows that they differ.
const PAIRS: [(&[u8], &[u8], bool); 22] = [
    (b"AB", b"AB ", false),
    (b"AB", b"AB              ", false),
    (b"AB", b"AB  \0 x", false),
    (b"AB\0 x", b"AB\0y ", false),
    (b"AB ", b"AB\0", false),
    (b"", b" ", false),
    (b"", b"                ", false),
    (b"  \0x", b"\0 y", false),
    (b"A B", b"A B ", false),
    (b" A", b" A  \0", false),
    (b"ABCDEFGHIJKLMNO ", b"ABCDEFGHIJKLMNO", false),
    (b"AB", b"A B", true),
    (b"AB", b" AB", true),
    (b"A B", b"A  B", true),
    (b"AB", b"AB\t", true),
    (b"AB ", b"AB \t", true),
    (b"AB", b"AB\n", true),
    (b"AB", b"AB\xA0", true),
    (b"", b"\t", true),
    (b"   ", b"   \x0B", true),
    (b"ABCDEFGHIJKLMNO ", b"ABCDEFGHIJKLMNO\r", true),
    (b"ABCDEFGHIJKLMNO ", b"ABCDEFGHIJKLMN  ", true),
];

/// What puts a text of at most 16 bytes into a field that is released.
const RELEASED: [fn(&mut FileSpec, &[u8]); 4] = [
    |spec, text| spec.system = padded(text),
    |spec, text| spec.software = padded(text),
    |spec, text| spec.records[0].description = padded(text),
    |spec, text| spec.records[0].user = padded(text),
];

#[test]
fn pairs_of_texts_show_as_it_is_written_here() {
    let mut compared = Compared::new();
    let mut rng = Rng::new(FIXED_SEED);
    let names: [&[u8]; 8] = [
        KEPT,
        b"",
        b"AB",
        b" AB",
        b"A B",
        b" A",
        b"AB\t",
        b"ABCDEFGHIJKLMNO",
    ];
    let sheet = sheet(names);
    for (one, other, shows) in PAIRS {
        for put in RELEASED {
            let [first, second] = [one, other].map(|text| {
                let mut spec = base(ID);
                put(&mut spec, text);
                compared.case(text.escape_ascii().to_string());
                release(&mut compared, &mut rng, &spec.bytes(), &sheet)
            });
            let texts = [one, other].map(|text| text.escape_ascii());
            assert_eq!(first != second, shows, "{} and {}", texts[0], texts[1]);
        }
    }
}

//! User IDs: the sheet's, the file's and that of the call `record_kept`, which may have any length.

use compare::compared::Compared;
use compare::spec::{FileSpec, LineSpec, RecordSpec, projection};

use super::table;

const ID: u16 = 7;

/// A sheet's user ID, the call's, and whether the record is kept.
type Kept = (&'static [u8; 16], &'static [u8], u64);

const OF_SPACES: [Kept; 16] = [
    (b"                ", b"", 1),
    (b"                ", b" ", 1),
    (b"                ", b"                ", 1),
    (b"                ", b"                 ", 1),
    (b"                ", b"\0", 1),
    (b"                ", b"  \0x", 1),
    (b"                ", b"\0x", 1),
    (b"                ", b"\t", 0),
    (b"                ", b" x", 0),
    (b"                ", b"x", 0),
    (b"  \0x            ", b"", 1),
    (b"\0               ", b"   ", 1),
    (b"\0               ", b" \xA0", 0),
    (b"               x", b"               x", 1),
    (b"               x", b"               x   ", 1),
    (b"               x", b"x", 0),
];

const SHORT: [Kept; 23] = [
    (b"AB              ", b"AB", 1),
    (b"AB              ", b"AB ", 1),
    (b"AB              ", b"AB  \0 x", 1),
    (b"AB              ", b"AB\0", 1),
    (b"AB              ", b"AB\0 x", 1),
    (b"AB\0             ", b"AB   ", 1),
    (b"AB  \0 x         ", b"AB", 1),
    (b"AB  \0 x         ", b"AB\0\0\0\0\0\0\0\0\0\0\0\0\0\0", 1),
    (b"AB              ", b"A", 0),
    (b"AB              ", b"A B", 0),
    (b"AB              ", b" AB", 0),
    (b"AB              ", b"AB x", 0),
    (b"AB              ", b"AB\t", 0),
    (b"AB              ", b"AB \t", 0),
    (b"AB              ", b"AB\x1F", 0),
    (b"AB              ", b"AB!", 0),
    (b"AB              ", b"AB\xA0", 0),
    (b"AB              ", b"", 0),
    (b"AB\t             ", b"AB\t", 1),
    (b"AB\t             ", b"AB", 0),
    (b"A B             ", b"A B ", 1),
    (b"A B             ", b"A  B", 0),
    (b" A              ", b"A", 0),
];

const LONG: [Kept; 20] = [
    (b"fifteen letters ", b"fifteen letters", 1),
    (b"fifteen letters ", b"fifteen letters ", 1),
    (b"fifteen letters ", b"fifteen letters\0", 1),
    (b"fifteen letters ", b"fifteen letters  ", 1),
    (b"fifteen letters ", b"fifteen letters\t", 0),
    (b"fifteen letters ", b"fifteen letters x", 0),
    (b"fifteen letters\0", b"fifteen letters ", 1),
    (b"fifteen letters\t", b"fifteen letters", 0),
    (b"fifteen letters\t", b"fifteen letters\t   ", 1),
    (b"fifteen letters!", b"fifteen letters ", 0),
    (b"sixteen letters!", b"sixteen letters!", 1),
    (b"sixteen letters!", b"sixteen letters! ", 1),
    (b"sixteen letters!", b"sixteen letters!          ", 1),
    (b"sixteen letters!", b"sixteen letters!  \0 x", 1),
    (b"sixteen letters!", b"sixteen letters!\0", 1),
    (b"sixteen letters!", b"sixteen letters! x", 0),
    (b"sixteen letters!", b"sixteen letters!!", 0),
    (b"sixteen letters!", b"sixteen letters!\t", 0),
    (b"sixteen letters!", b" sixteen letters!", 0),
    (b"sixteen letters!", b"sixteen letters", 0),
];

#[test]
fn names_are_kept_as_it_is_written_here() {
    let mut compared = Compared::new();
    let mut reached = [0; 2];
    for (name, user, kept) in OF_SPACES.iter().chain(&SHORT).chain(&LONG) {
        let sheet = LineSpec::Record(**name, ID).bytes();
        let case = format!("{} and {}", name.escape_ascii(), user.escape_ascii());
        compared.case(&case);
        let answer = compared.record_kept(&sheet, user, ID);
        assert_eq!((answer.number, answer.kept), (0, *kept), "{case}");
        assert_eq!(compared.record_kept(&sheet, user, ID + 1).kept, 0);
        reached[*kept as usize] += 1;
    }
    assert_eq!(reached, [27, 32]);
}

#[test]
fn every_two_names_match_where_their_cut_texts_are_the_same() {
    let mut compared = Compared::new();
    let mut reached = [0; 2];
    for on_sheet in table::few::<16>() {
        let sheet = LineSpec::Record(on_sheet.field, ID).bytes();
        for asked in table::few::<16>() {
            let [one, other] = [&on_sheet, &asked].map(|case| case.field.escape_ascii());
            let case = format!("{one} and {other}");
            compared.case(&case);
            let due = u64::from(on_sheet.cut == asked.cut);
            for user in [asked.field.as_slice(), &asked.cut] {
                let answer = compared.record_kept(&sheet, user, ID);
                assert_eq!((answer.number, answer.kept), (0, due), "{case}");
            }
            reached[due as usize] += 1;
        }
    }
    assert!(reached.iter().all(|&times| times > 10_000), "{reached:?}");
}

#[test]
fn a_release_keeps_all_records_whose_cut_name_is_on_the_sheet_and_no_others() {
    let mut compared = Compared::new();
    let names = table::few::<16>();
    let records = names.iter().map(|name| RecordSpec {
        user: name.field,
        ..projection(ID, b"")
    });
    let spec = FileSpec {
        records: records.collect(),
        ..FileSpec::bare(0)
    };
    let file = spec.bytes();
    for on_sheet in &names {
        let sheet = LineSpec::Record(on_sheet.field, ID).bytes();
        compared.case(on_sheet.field.escape_ascii().to_string());
        let (answer, _) = compared.release(&file, &sheet, &vec![0xEE; file.len()]);
        let same = names.iter().filter(|name| name.cut == on_sheet.cut).count();
        assert!(same < names.len());
        assert_eq!((answer.number, answer.records), (0, same as u64));
        assert_eq!(answer.length, 227 + 54 * answer.records);
    }
}

#[test]
fn any_number_of_spaces_behind_the_name_of_the_call_is_dropped() {
    let mut compared = Compared::new();
    let names: [&[u8]; 5] = [b"", b"A", b" A B", b"fifteen letters", b"sixteen letters!"];
    for name in names {
        let mut field = [b' '; 16];
        field[..name.len()].copy_from_slice(name);
        let sheet = LineSpec::Record(field, ID).bytes();
        for spaces in (0..=40).chain([255, 256, 300, 4096, 65535, 65536, 1 << 20]) {
            let user = [name, &vec![b' '; spaces]].concat();
            compared.case(format!("{} and {spaces} spaces", name.escape_ascii()));
            let mut kept = |end: &[u8]| {
                let user = [&user, end].concat();
                compared.record_kept(&sheet, &user, ID).kept
            };
            assert_eq!(
                [b"".as_slice(), b"\0", b"\0x", b"\0 "].map(&mut kept),
                [1; 4]
            );
            assert_eq!(
                [b"x".as_slice(), b"\t", b"\xA0 ", b"x\0"].map(&mut kept),
                [0; 4]
            );
        }
    }
}

#[test]
fn a_name_of_more_than_16_letters_is_on_no_sheet() {
    let mut compared = Compared::new();
    let sheet = LineSpec::Record(*b"seventeen letter", ID).bytes();
    for (user, kept) in [
        (b"seventeen letter".as_slice(), 1),
        (b"seventeen letter\0s", 1),
        (b"seventeen letter s", 0),
        (b"seventeen letters", 0),
        (b"seventeen letters   ", 0),
    ] {
        compared.case(user.escape_ascii().to_string());
        assert_eq!(compared.record_kept(&sheet, user, ID).kept, kept);
    }
}

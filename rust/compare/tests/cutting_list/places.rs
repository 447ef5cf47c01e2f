//! Lists that are written down, line by line.

use compare::answers::Line;
use compare::compared::Compared;
use compare::rng::{FIXED_SEED, Rng};
use compare::spec::{
    BoxSpec, FileSpec, KEY_POINT, LineSpec, RecordSpec, SYNTHETIC, SheetSpec, WITHHELD, padded,
    put_place, random_point_of,
};

use super::table::{Case, line};

fn record(user: &[u8], record_id: u16, payload: usize) -> RecordSpec {
    RecordSpec {
        reserved: [9; 2],
        user: padded(user),
        record_id,
        description: padded(b"description"),
        payload: vec![7; payload],
    }
}

/// Records at 230, 294, 348, 602 and 657, which end at 711; points of 31 bytes at 716, 747 and so on, up to 933, with X
/// 0, 1 and so on, up to 6; and bytes behind them.
fn file() -> FileSpec {
    let mut rng = Rng::new(FIXED_SEED);
    let mut spec = FileSpec {
        header_extra: vec![1; 3],
        record_length: 31,
        records: vec![
            record(b"user", 7, 10),
            record(b"other", 7, 0),
            record(b"user  ", 7, 200),
            record(b"user", 8, 1),
            record(b"user", 7, 0),
        ],
        gap: vec![2; 5],
        trailing: vec![3; 62],
        ..FileSpec::bare(1)
    };
    let bytes = [
        2,
        3,
        2 | KEY_POINT,
        2 | WITHHELD,
        6,
        31,
        6 | SYNTHETIC | WITHHELD,
    ];
    spec.points = bytes.map(|byte| random_point_of(&mut rng, 31, byte)).into();
    for (x, point) in (0..).zip(&mut spec.points) {
        put_place(point, [x, -x, 100 * x]);
    }
    spec
}

/// A sheet with these lines, and the list that it makes of the file.
type Written = (Vec<LineSpec>, Vec<Line>);

fn name(user: &[u8], record_id: u16) -> LineSpec {
    LineSpec::Record(padded(user), record_id)
}

/// The lines of all records of one name.
fn of_user() -> [Line; 3] {
    [line(284, 10), line(402, 200), line(711, 0)]
}

fn written() -> Vec<Written> {
    let classes = LineSpec::Classes;
    let (user, other) = (name(b"user", 7), name(b"other", 7));
    let records = [line(284, 10), line(348, 0), line(402, 200), line(711, 0)];
    vec![
        (vec![], vec![]),
        (vec![classes(2, 2)], vec![line(716, 31), line(778, 31)]),
        (vec![classes(3, 3)], vec![line(747, 31)]),
        (vec![classes(6, 31)], vec![line(840, 31), line(871, 31)]),
        (
            vec![classes(0, 255)],
            [716, 747, 778, 840, 871]
                .map(|place| line(place, 31))
                .into(),
        ),
        (vec![classes(66, 255)], vec![]),
        (vec![user.clone()], of_user().to_vec()),
        (vec![other.clone()], vec![line(348, 0)]),
        (vec![name(b"user", 8)], vec![line(656, 1)]),
        (vec![name(b"use", 7)], vec![]),
        // The order on the sheet is not the order of a list, and no item stands twice in it.
        (
            vec![
                classes(3, 3),
                user.clone(),
                classes(2, 3),
                name(b"user ", 7),
                other,
            ],
            [&records[..], &[716, 747, 778].map(|place| line(place, 31))].concat(),
        ),
        (
            vec![user, classes(31, 31)],
            [&of_user()[..], &[line(871, 31)]].concat(),
        ),
    ]
}

/// Boxes keep points of the classes alone, and have no part in which records are kept.
fn written_with_boxes() -> Vec<Written> {
    let classes = LineSpec::Classes;
    // From one X to another, with Y and Z to match.
    let boxed = |low: i32, high: i32| {
        LineSpec::Box(BoxSpec::new([low, -high, 0], [high, -low, 100 * high]))
    };
    vec![
        (
            vec![classes(0, 255), boxed(1, 4)],
            vec![line(747, 31), line(778, 31), line(840, 31)],
        ),
        (vec![boxed(2, 5), classes(2, 2)], vec![line(778, 31)]),
        (
            vec![boxed(5, 5), classes(0, 255), boxed(0, 1)],
            vec![line(716, 31), line(747, 31), line(871, 31)],
        ),
        (vec![boxed(0, 6)], vec![]),
        (vec![boxed(7, 9), classes(0, 255)], vec![]),
        (
            vec![boxed(6, 7), name(b"user", 7), classes(0, 255), boxed(3, 4)],
            [&of_user()[..], &[line(840, 31)]].concat(),
        ),
    ]
}

#[test]
fn a_file_has_the_lists_that_are_written_here() {
    let spec = file();
    assert_eq!((spec.records_end(), spec.point_offset()), (711, 716));
    let mut compared = Compared::new();
    for (on_sheet, due) in [written(), written_with_boxes()].concat() {
        compared.case(format!("{on_sheet:?}"));
        let sheet = SheetSpec::new(on_sheet);
        let (answer, list) =
            compared.cutting_list(&spec.bytes(), &sheet.bytes(), &[line(1, 1); 12]);
        let lines = answer.lines as usize;
        assert_eq!((answer.number, &list[..lines]), (0, &due[..]), "{sheet:?}");
        assert_eq!(list[lines..], [line(1, 1); 12][lines..]);
        // What the other tests take for due is what is written here.
        assert_eq!(Case::new(&spec, &sheet).lines, due);
        let room = vec![0xEE; spec.bytes().len()];
        let (released, _, list) =
            compared.release_by_list(&spec.bytes(), &sheet.bytes(), &room, &due);
        assert_eq!((released.number, list), (0, due));
    }
}

#[test]
fn a_line_of_a_point_has_its_extra_bytes() {
    let mut compared = Compared::new();
    for (format, record_length) in [
        (0, 20),
        (0, 21),
        (1, 28),
        (2, 26),
        (2, 300),
        (3, 34),
        (3, 65535),
    ] {
        let spec = FileSpec {
            record_length,
            points: [3, 2, 3, 2]
                .map(|class| vec![class; record_length.into()])
                .into(),
            ..FileSpec::bare(format)
        };
        let length = usize::from(record_length);
        let due = vec![line(227 + length, length), line(227 + 3 * length, length)];
        let sheet = SheetSpec::new([LineSpec::Classes(2, 2)]).bytes();
        compared.case(format!("format {format}, record length {record_length}"));
        let (_, list) = compared.cutting_list(&spec.bytes(), &sheet, &[line(9, 9); 2]);
        assert_eq!(list, due);
    }
}

//! The order among refusals: the file's, then the sheet's, then 31, then 30; and none changes the list or the output.

use compare::compared::{Compared, Function};
use compare::damage::spoil;
use compare::rng::{FIXED_SEED, Rng};
use compare::spec::{FileSpec, projection, put_place};

use super::table::{junk, listed, not_listed, refused};

/// What one sheet keeps of the file: three points in a box, and a record.
const LINES: usize = 4;
const LENGTH: usize = 227 + 54 + 9 + 3 * 28;

fn file() -> Vec<u8> {
    let mut outside = vec![2; 28];
    put_place(&mut outside, [0; 3]);
    FileSpec {
        records: vec![projection(7, vec![1; 9]), projection(8, vec![1; 9])],
        points: vec![vec![2; 28], outside, vec![2; 28], vec![3; 28], vec![2; 28]],
        trailing: vec![2; 100],
        ..FileSpec::bare(1)
    }
    .bytes()
}

/// The sheet that keeps them, with 0, and that sheet with a fault at its end, with the fault's number.
fn sheets() -> [(Vec<u8>, u64); 10] {
    let front = b"KS\x01\x02\x02KS\x02LASF_Projection\0\x07\0KS\x03";
    let good = [front.as_slice(), &[2; 24]].concat();
    let reversed = [b"KS\x03".as_slice(), &[2; 20], &[1; 4]].concat();
    let ends: [(&[u8], u64); 10] = [
        (b"", 0),
        (b"KT\x01\x02\x02", 20),
        (b"KS\x00", 21),
        (b"KS\x04", 21),
        (b"KS", 22),
        (&reversed[..3], 22),
        (&reversed[..26], 22),
        (b"KS\x01\x03\x02", 23),
        (&reversed, 23),
        (&b"KS\x01\x02\x02".repeat(62), 24),
    ];
    ends.map(|(end, number)| ([good.as_slice(), end].concat(), number))
}

/// Lengths of lists and outputs: too short, too short by one, exact, longer; with 31 or 30 where they are too short.
const LISTS: [(usize, u64); 5] = [
    (0, 31),
    (1, 31),
    (LINES - 1, 31),
    (LINES, 0),
    (LINES + 3, 0),
];
const ROOMS: [(usize, u64); 5] = [
    (0, 30),
    (226, 30),
    (LENGTH - 1, 30),
    (LENGTH, 0),
    (LENGTH + 9, 0),
];

/// The first of the numbers that is not 0.
fn first<const N: usize>(numbers: [u64; N]) -> u64 {
    let found = numbers.into_iter().find(|&number| number != 0);
    found.unwrap_or(0)
}

/// Asks both functions with lists and outputs of all those lengths.
fn assert_in_order(compared: &mut Compared, file: &[u8], sheet: &[u8], numbers: [u64; 2]) {
    let mut rng = Rng::new(FIXED_SEED);
    for (length, list_number) in LISTS {
        let before = junk(&mut rng, length);
        let (answer, _) = compared.cutting_list(file, sheet, &before);
        let due = first([numbers[0], numbers[1], list_number]);
        let good = if due == 0 {
            listed(LINES)
        } else {
            not_listed(due)
        };
        assert_eq!(answer, good);
        for (room, room_number) in ROOMS {
            let out_before = rng.bytes(room);
            let (answer, out, list) = compared.release_by_list(file, sheet, &out_before, &before);
            let due = first([numbers[0], numbers[1], list_number, room_number]);
            assert_eq!(
                answer.number, due,
                "a list of {length}, an output of {room}"
            );
            match due {
                0 => assert_eq!((answer.length, answer.points), (LENGTH as u64, 3)),
                30 => assert_eq!(answer, refused(30, LENGTH as u64)),
                _ => assert_eq!(answer, refused(due, 0)),
            }
            assert!(due == 0 || (out, list) == (out_before, before.clone()));
        }
    }
}

#[test]
fn file_numbers_come_before_sheet_numbers_before_31_before_30() {
    let mut compared = Compared::new();
    for (sheet, sheet_number) in sheets() {
        for file_number in 0..=10 {
            let mut file = file();
            if file_number > 0 {
                spoil(&mut file, file_number);
            }
            compared.case(format!("file {file_number}, sheet {sheet_number}"));
            let numbers = [file_number, sheet_number];
            assert_in_order(&mut compared, &file, &sheet, numbers);
        }
    }
    compared.assert_all_reached(&[Function::CuttingList, Function::ReleaseByList]);
}

#[test]
fn with_both_too_short_31_is_given_without_a_length_and_30_alone_has_one() {
    let mut compared = Compared::new();
    let (file, [(sheet, _), ..]) = (file(), sheets());
    let list = junk(&mut Rng::new(FIXED_SEED), LINES);
    let mut number = |lines: usize, room: usize| {
        let (answer, ..) =
            compared.release_by_list(&file, &sheet, &vec![0xEE; room], &list[..lines]);
        (answer.number, answer.length)
    };
    let needed = LENGTH as u64;
    assert_eq!(number(LINES - 1, LENGTH - 1), (31, 0));
    assert_eq!(number(LINES - 1, LENGTH), (31, 0));
    assert_eq!(number(LINES, LENGTH - 1), (30, needed));
    assert_eq!(number(LINES, LENGTH), (0, needed));
    assert_eq!(number(0, 0), (31, 0));
    assert_eq!(number(LINES, 0), (30, needed));
}

//! Mending, against what was worked out by hand and against a tally that shares nothing with the library.

use korbishaf::Mended;
use std::fs;
use std::path::Path;

/// The twelve fields in the order of the header: place and width.
const FIELDS: [(usize, usize); 12] = [
    (107, 4),
    (111, 4),
    (115, 4),
    (119, 4),
    (123, 4),
    (127, 4),
    (179, 8),
    (187, 8),
    (195, 8),
    (203, 8),
    (211, 8),
    (219, 8),
];

/// The file of a card that passes: 817 bytes, twelve points of 28 bytes from 464 on, and a header that lies about them.
fn yard() -> Vec<u8> {
    let card = Path::new(env!("CARGO_MANIFEST_DIR")).join("../../cards/yard/in.las");
    fs::read(card).unwrap()
}

fn set(file: &mut [u8], place: usize, bytes: impl AsRef<[u8]>) {
    let bytes = bytes.as_ref();
    file[place..place + bytes.len()].copy_from_slice(bytes);
}

fn short(file: &[u8], place: usize) -> usize {
    u16::from_le_bytes(file[place..place + 2].try_into().unwrap()).into()
}

fn long(file: &[u8], place: usize) -> u32 {
    u32::from_le_bytes(file[place..place + 4].try_into().unwrap())
}

fn double(file: &[u8], place: usize) -> f64 {
    f64::from_le_bytes(file[place..place + 8].try_into().unwrap())
}

/// The file as it should become, if it is one that is mended.
fn mended(file: &[u8]) -> Vec<u8> {
    let (offset, length) = (long(file, 96) as usize, short(file, 105));
    let points: Vec<&[u8]> = file[offset..].chunks_exact(length).collect();
    let count = points.len().min(long(file, 107) as usize);
    let points = &points[..count];
    let mut wanted = file.to_vec();
    set(&mut wanted, 107, (count as u32).to_le_bytes());
    for bin in 1..=5u8 {
        let of_bin = points.iter().filter(|point| point[14] & 7 == bin).count();
        set(
            &mut wanted,
            107 + 4 * usize::from(bin),
            (of_bin as u32).to_le_bytes(),
        );
    }
    for axis in 0..3 {
        let stored = points.iter().map(|point| long(point, 4 * axis) as i32);
        let coordinate = |stored: i32| {
            f64::from(stored) * double(file, 131 + 8 * axis) + double(file, 155 + 8 * axis)
        };
        let max = stored.clone().max().map_or(0.0, coordinate);
        let min = stored.min().map_or(0.0, coordinate);
        set(&mut wanted, 179 + 16 * axis, max.to_le_bytes());
        set(&mut wanted, 187 + 16 * axis, min.to_le_bytes());
    }
    wanted
}

/// Which of the fields have other bytes in two files.
fn differing(one: &[u8], other: &[u8]) -> [bool; 12] {
    FIELDS.map(|(place, width)| one[place..place + width] != other[place..place + width])
}

/// Mends a file, and asserts that it becomes what it should and that the marks say so. Gives both.
fn mends(mut file: Vec<u8>) -> (Vec<u8>, Mended) {
    let wanted = mended(&file);
    let marks = differing(&file, &wanted);
    let answer = korbishaf::mend(&mut file).unwrap();
    assert!(file == wanted);
    assert_eq!(answer.marks(), marks);
    assert_eq!(answer.any(), marks.contains(&true));
    (file, answer)
}

#[test]
fn a_file_cut_in_the_middle_of_a_point() {
    let mut file = yard();
    file.truncate(700);
    assert_eq!(korbishaf::check_file(&file).unwrap_err().number(), 9);
    let (file, answer) = mends(file);
    assert_eq!(file.len(), 700);
    assert!(answer.point_count);
    assert_eq!(korbishaf::read_header(&file).unwrap().point_count, 8);
}

#[test]
fn every_length_and_every_number_of_points() {
    let yard = yard();
    for length in 464..=yard.len() {
        mends(yard[..length].to_vec());
    }
    for count in (0..=13).chain([1 << 31, u32::MAX]) {
        let mut file = yard.clone();
        set(&mut file, 107, count.to_le_bytes());
        let (file, answer) = mends(file);
        // twelve points, and 17 bytes behind them that are no whole one
        assert_eq!(long(&file, 107), count.min(12));
        assert_eq!(answer.point_count, count > 12);
    }
}

#[test]
fn what_is_right_is_not_marked() {
    let (right, _) = mends(yard());
    assert_eq!(mends(right.clone()), (right.clone(), Mended::default()));
    for (index, (place, width)) in FIELDS.into_iter().enumerate() {
        let mut file = right.clone();
        // a number of points that is too large, and other signs of the bounds
        file[place + width - 1] ^= 0x80;
        let (file, answer) = mends(file);
        assert!(file == right);
        let alone: [bool; 12] = std::array::from_fn(|other| other == index);
        assert_eq!(answer.marks(), alone);
    }
}

/// By value -0.0 is +0.0, and a NaN differs from itself: the bytes decide.
#[test]
fn without_points_the_bounds_are_zero_by_their_bytes() {
    let mut file = yard();
    set(&mut file, 107, [0; 24]);
    set(&mut file, 179, [0; 48]);
    assert_eq!(mends(file.clone()).1, Mended::default());
    for (place, bound) in [(179, -0.0), (203, f64::NAN), (211, f64::INFINITY)] {
        set(&mut file, place, f64::to_le_bytes(bound));
    }
    let (file, answer) = mends(file);
    assert_eq!(file[179..227], [0; 48]);
    let changed = Mended {
        max: [true, false, true],
        min: [false, true, false],
        ..Mended::default()
    };
    assert_eq!(answer, changed);
}

/// Each with a number of points that would be refused with 9, which is not given here.
#[test]
fn a_refusal_changes_nothing() {
    let mut yard = yard();
    set(&mut yard, 107, u32::MAX.to_le_bytes());
    let damages: [(usize, &[u8], u64); 9] = [
        (0, b"l", 2),
        (25, &[4], 3),
        (94, &226u16.to_le_bytes(), 4),
        (104, &[4], 5),
        (105, &27u16.to_le_bytes(), 6),
        (96, &818u32.to_le_bytes(), 7),
        (100, &1000u32.to_le_bytes(), 8),
        (131, &0.0f64.to_le_bytes(), 10),
        (171, &f64::NAN.to_le_bytes(), 10),
    ];
    for (place, bytes, number) in damages {
        let mut file = yard.clone();
        set(&mut file, place, bytes);
        refuses(file, number);
    }
    refuses(yard[..226].to_vec(), 1);
    refuses(Vec::new(), 1);
}

fn refuses(mut file: Vec<u8>, number: u64) {
    let before = file.clone();
    let refused = korbishaf::mend(&mut file).unwrap_err();
    assert_eq!(refused.number(), number);
    assert!(file == before, "{number}");
}

//! Boxes on a sheet: their bytes and lines, what is refused, and what they keep of a file.

use korbishaf::{ClassLine, ErrorKind, Line, Point, Sheet, bytes};
use korbishaf::{class_kept, class_test, encode, record_kept, release_to_vec};

/// A line of a box with low and high values at all sorts of bytes, worked out by hand.
const BYTES: &[u8; 27] =
    b"KS\x03\xFF\xFF\xFF\xFF\x2C\x01\0\0\0\0\0\x80\0\0\0\0\x05\0\0\0\xFF\xFF\xFF\x7F";

/// The same line.
fn line() -> Line {
    Line::bounding_box([-1, i32::MIN, 5], [300, 0, i32::MAX])
}

/// The box from 0 to 10 on each axis, with other values on one.
fn with_axis(axis: usize, lowest: i32, highest: i32) -> Line {
    let (mut low, mut high) = ([0; 3], [10; 3]);
    (low[axis], high[axis]) = (lowest, highest);
    Line::bounding_box(low, high)
}

/// The bytes of a box, one value behind the other.
fn bytes_of(values: [i32; 6]) -> Vec<u8> {
    [b"KS\x03", &*values.map(i32::to_le_bytes).concat()].concat()
}

fn number(bytes: &[u8]) -> u64 {
    Sheet::from_bytes(bytes).map_or_else(|refused| refused.number(), |_| 0)
}

#[test]
fn bytes_to_lines_and_back() {
    let sheet = Sheet::from_bytes(*BYTES).unwrap();
    assert!(sheet.lines().eq([line()]));
    let (low, high) = ([-1, i32::MIN, 5], [300, 0, i32::MAX]);
    assert!(sheet.lines().eq([Line::Box { low, high }]));
    assert_eq!(Sheet::from_lines([line()]).unwrap().as_bytes(), BYTES);
    assert_eq!(Sheet::read(BYTES), Ok(sheet));
}

#[test]
fn boxes_stand_among_other_lines() {
    let bytes = [
        b"KS\x01\x02\x05",
        &BYTES[..],
        b"KS\x02yard\0\0\0\0\0\0\0\0\0\0\0\0\x07\0",
        BYTES,
    ]
    .concat();
    let sheet = Sheet::from_bytes(&*bytes).unwrap();
    let lines = [
        Line::classes(2, 5),
        line(),
        Line::record("yard", 7).unwrap(),
        line(),
    ];
    assert!(sheet.lines().eq(lines));
    assert_eq!(Sheet::from_lines(lines).unwrap().as_bytes(), bytes);
}

#[test]
fn every_value_has_its_place() {
    for place in 0..6 {
        let mut values = [0, 9, 0, 9, 0, 9];
        values[place] = 5;
        let sheet = Sheet::from_bytes(bytes_of(values)).unwrap();
        let [low_x, high_x, low_y, high_y, low_z, high_z] = values;
        let wanted = Line::bounding_box([low_x, low_y, low_z], [high_x, high_y, high_z]);
        assert!(sheet.lines().eq([wanted]), "{values:?}");
        assert_eq!(Sheet::from_lines([wanted]), Ok(sheet));
    }
}

/// Also where the values would be in order as unsigned ones.
#[test]
fn a_low_value_above_its_high_one_is_23_on_any_axis() {
    for axis in 0..3 {
        for (low, high, wanted) in [
            (5, 5, 0),
            (4, 5, 0),
            (6, 5, 23),
            (-1, 0, 0),
            (0, -1, 23),
            (-2, -1, 0),
            (-1, -2, 23),
            (i32::MIN, i32::MAX, 0),
            (i32::MAX, i32::MIN, 23),
            (i32::MIN, i32::MIN, 0),
            (i32::MAX, i32::MAX, 0),
            (i32::MAX, i32::MAX - 1, 23),
            (i32::MIN + 1, i32::MIN, 23),
            (0x0100, 0x0001_0000, 0),
            (0x0001_0000, 0x0100, 23),
        ] {
            let answer = Sheet::from_lines([Line::class(2), with_axis(axis, low, high)]);
            let found = answer
                .as_ref()
                .map_or_else(|refused| refused.number(), |_| 0);
            assert_eq!(found, wanted, "{axis}: {low} to {high}");
            match answer {
                Ok(sheet) => assert_eq!(sheet.lines().nth(1), Some(with_axis(axis, low, high))),
                Err(refused) => assert_eq!(refused.kind(), ErrorKind::Sheet),
            }
        }
    }
}

/// What is cut is not looked at, whether its values are in order or not.
#[test]
fn a_body_that_is_cut_is_22_at_every_length() {
    let reversed = bytes_of([1, 0, 1, 0, 1, 0]);
    for whole in [&BYTES[..], &reversed] {
        for length in 1..27 {
            assert_eq!(number(&whole[..length]), 22, "{length}");
            let behind_others = [&b"KS\x01\x02\x02"[..], BYTES, &whole[..length]].concat();
            assert_eq!(number(&behind_others), 22, "{length}");
        }
    }
    assert_eq!((number(BYTES), number(&reversed)), (0, 23));
    assert_eq!(number(&[&BYTES[..], b"K"].concat()), 22);
}

#[test]
fn kinds_that_are_none_of_the_three_are_21() {
    for kind in (0..=255).filter(|kind| !(1..=3).contains(kind)) {
        for body in [0, 2, 18, 24, 30] {
            let bytes = [&[b'K', b'S', kind][..], &vec![7; body]].concat();
            assert_eq!(number(&bytes), 21, "{kind}");
        }
    }
}

#[test]
fn a_sheet_has_at_most_64_boxes() {
    let boxes = |count| std::iter::repeat_n(line(), count);
    let full = Sheet::from_lines(boxes(64)).unwrap();
    assert_eq!(full.as_bytes(), BYTES.repeat(64));
    assert!(full.lines().eq(boxes(64)));
    assert_eq!(Sheet::from_text(full.to_text()), Ok(full));
    assert_eq!(Sheet::from_lines(boxes(65)).unwrap_err().number(), 24);
    assert_eq!(number(&BYTES.repeat(65)), 24);
    assert_eq!(number(&[&BYTES.repeat(64)[..], b"K"].concat()), 24);
}

/// They are asked about a class and not about a point; lines of boxes count among those looked at.
#[test]
fn class_tests_know_no_boxes() {
    let sheet = Sheet::from_lines([line(), Line::class(2), line(), Line::class(5)]).unwrap();
    for (class, kept, lines) in [(2, true, 2), (5, true, 4), (3, false, 4)] {
        assert_eq!(class_kept(&sheet, class), kept);
        let wanted = ClassLine { kept, lines };
        assert_eq!(class_test(&sheet, class), wanted);
        assert_eq!(bytes::class_test(sheet.as_bytes(), class), Ok(wanted));
    }
    let boxes = Sheet::from_lines([line(); 64]).unwrap();
    for class in 0..=255 {
        assert!(!class_kept(&boxes, class));
        let wanted = ClassLine {
            kept: false,
            lines: 64,
        };
        assert_eq!(class_test(&boxes, class), wanted);
    }
    let sheet = Sheet::from_lines([line(), Line::record("yard", 7).unwrap()]).unwrap();
    assert!(record_kept(&sheet, b"yard", 7));
    assert!(!record_kept(&sheet, b"yard", 8));
}

/// A file of format 0 with these points, of which the last is withheld.
fn scan() -> Vec<u8> {
    let mut file = vec![0; 227];
    file[..4].copy_from_slice(b"LASF");
    file[24..26].copy_from_slice(&[1, 2]);
    file[94..96].copy_from_slice(&227u16.to_le_bytes());
    file[96..100].copy_from_slice(&227u32.to_le_bytes());
    file[105..107].copy_from_slice(&20u16.to_le_bytes());
    file[107] = PLACES.len() as u8;
    for scale in [131, 139, 147] {
        file[scale..scale + 8].copy_from_slice(&0.5f64.to_le_bytes());
    }
    for (index, (classification, [x, y, z])) in PLACES.into_iter().enumerate() {
        let withheld = index + 1 == PLACES.len();
        let point = Point {
            x,
            y,
            z,
            classification,
            withheld,
            ..Point::default()
        };
        let mut record = [0; 20];
        encode(0, 20, &point, &mut record).unwrap();
        file.extend(record);
    }
    file
}

/// Class and stored values of each point. Around the box X -10..20 Y 0..5 Z 7..7 they are: two at its corners, one in
/// it, one beside each of its six sides, one of another class in it, two far away, and one in it that is withheld.
const PLACES: [(u8, [i32; 3]); 13] = [
    (2, [-10, 0, 7]),
    (2, [20, 5, 7]),
    (2, [0, 3, 7]),
    (2, [-11, 0, 7]),
    (2, [21, 5, 7]),
    (2, [0, -1, 7]),
    (2, [0, 6, 7]),
    (2, [0, 3, 6]),
    (2, [0, 3, 8]),
    (6, [0, 3, 7]),
    (2, [i32::MIN, i32::MIN, i32::MIN]),
    (2, [i32::MAX, i32::MAX, i32::MAX]),
    (2, [0, 3, 7]),
];

/// The indices of the points that a sheet releases. Each is recognised by its bytes.
fn released(sheet: &str) -> Vec<usize> {
    let (file, sheet) = (scan(), Sheet::from_text(sheet).unwrap());
    let out = release_to_vec(&file, &sheet).unwrap();
    let header = korbishaf::read_header(&out).unwrap();
    let mut left = file[227..].chunks(20).enumerate();
    let kept = out[227..]
        .chunks(20)
        .map(|point| left.find(|(_, other)| *other == point));
    let kept: Vec<usize> = kept
        .map(|found| found.expect("a point of the file").0)
        .collect();
    assert_eq!(header.point_count as usize, kept.len());
    let largest = kept
        .iter()
        .map(|&index| PLACES[index].1[0])
        .max()
        .unwrap_or(0);
    assert_eq!(header.max[0], f64::from(largest) * 0.5);
    kept
}

#[test]
fn edges_belong_to_a_box_and_what_is_beside_them_does_not() {
    let yard = "box X -10..20 Y 0..5 Z 7..7";
    assert_eq!(released(&format!("class 2\n{yard}")), [0, 1, 2]);
    assert_eq!(released(&format!("{yard}\nclass 6")), [9]);
    assert_eq!(released(&format!("class 0-255\n{yard}")), [0, 1, 2, 9]);
    assert_eq!(released(&format!("class 3\n{yard}")), []);
}

#[test]
fn an_axis_that_is_left_out_is_not_bounded() {
    assert_eq!(released("class 2\nbox X -10..20 Y 0..5"), [0, 1, 2, 7, 8]);
    assert_eq!(released("class 2\nbox Y 6..2147483647"), [6, 11]);
    assert_eq!(released("class 2\nbox Z -2147483648..6"), [7, 10]);
    let whole = "box X -2147483648..2147483647";
    assert_eq!(released(&format!("class 2\n{whole}")), released("class 2"));
}

#[test]
fn a_point_has_to_lie_in_one_of_the_boxes() {
    let corner = "box X 2147483647..2147483647 Y 2147483647..2147483647";
    assert_eq!(released(&format!("class 2\n{corner}")), [11]);
    assert_eq!(
        released(&format!("{corner}\nclass 2\nbox X 0..0 Y 3..3 Z 7..8")),
        [2, 8, 11]
    );
    // no point lies between two boxes, in the bounds of both together
    assert_eq!(released("class 2\nbox X -11..-11\nbox X 21..21"), [3, 4]);
}

#[test]
fn boxes_without_classes_keep_no_point() {
    assert_eq!(released("box X -2147483648..2147483647"), []);
    assert_eq!(released("box X -10..20\nrecord yard 7\nclass 32-255"), []);
}

//! The specification's samples, on the library and on `las_plain`.

use compare::answers::{Point, Released};
use compare::compared::Compared;
use compare::ours;
use compare::spec::{FileSpec, LineSpec, RecordSpec, SheetSpec};

/// The change request up to which `las_plain` and these comparisons speak.
const LEVEL: u64 = 7;

const P3: [u8; 5] = [0x4B, 0x53, 1, 2, 2];

/// One VLR of payload 10, two format 1 points, one of them of class 2.
fn p9_file() -> Vec<u8> {
    let record = RecordSpec {
        reserved: [1, 2],
        user: *b"user\0tail of it.",
        record_id: 7,
        description: [b'd'; 32],
        payload: b"0123456789".to_vec(),
    };
    let point = |class: u8| {
        let mut point: Vec<u8> = (1..=28).collect();
        point[15] = class;
        point
    };
    let spec = FileSpec {
        records: vec![record],
        points: vec![point(2), point(3)],
        ..FileSpec::bare(1)
    };
    assert_eq!((spec.point_offset(), spec.bytes().len()), (291, 347));
    spec.bytes()
}

#[test]
fn the_library_has_the_level_that_is_compared() {
    assert_eq!(ours::level(), LEVEL);
}

#[test]
fn empty_slices_may_come_as_null_pointers() {
    let numbers = [1, 0, 0, 12, 12, 1, 1, 1, 1, 1, 1];
    assert_eq!(ours::on_null_pointers(), numbers);
}

#[test]
fn p1_226_bytes_give_1_and_p2_227_zero_bytes_give_2() {
    let mut compared = Compared::new();
    assert_eq!(compared.check_file(&[0; 226]), 1);
    assert_eq!(compared.check_file(&[0; 227]), 2);
}

#[test]
fn p3_keeps_class_2_alone() {
    let mut compared = Compared::new();
    for class in 0..=255 {
        let kept = compared.class_kept(&P3, class).kept;
        assert_eq!(kept, u64::from(class == 2), "class {class}");
    }
}

#[test]
fn p4_gives_23_p5_gives_22_and_p6_gives_20() {
    let mut compared = Compared::new();
    assert_eq!(compared.check_sheet(&[0x4B, 0x53, 1, 3, 2]), 23);
    assert_eq!(compared.check_sheet(&[0x4B, 0x53]), 22);
    assert_eq!(compared.check_sheet(&[0x4B, 0x54, 1]), 20);
}

#[test]
fn p7_reads_its_fields() {
    let bytes = [
        0xFF, 0xFF, 0xFF, 0xFF, 0x64, 0, 0, 0, 0, 0, 0, 0, 0x2C, 0x01, 0x11, 0x02, 0xFD, 0, 0x07, 0,
    ];
    let fields = Point {
        x: -1,
        y: 100,
        z: 0,
        intensity: 300,
        return_number: 1,
        returns: 2,
        classification: 2,
        scan_angle: -3,
        user_data: 0,
        source_id: 7,
        synthetic: 0,
        key_point: 0,
        withheld: 0,
        ..Point::default()
    };
    assert_eq!(Compared::new().decode(0, 20, &bytes), fields);
}

#[test]
fn p8_gives_nine_and_a_half() {
    let bits = Compared::new().coordinate(-1, 0.5f64.to_bits(), 10f64.to_bits());
    assert_eq!(bits.to_le_bytes(), [0, 0, 0, 0, 0, 0, 0x23, 0x40]);
}

#[test]
fn p9_needs_255_bytes_and_has_its_point_at_227() {
    let mut compared = Compared::new();
    let file = p9_file();
    let (answer, out) = compared.release(&file, &P3, &[0xEE; 255]);
    let released = Released {
        number: 0,
        length: 255,
        points: 1,
        records: 0,
    };
    assert_eq!(answer, released);
    assert_eq!(out[96..100], [227, 0, 0, 0]);
    assert_eq!(out[227..], file[291..319]);
    let (answer, _) = compared.release(&file, &P3, &[0xEE; 254]);
    let too_short = Released {
        number: 30,
        length: 255,
        ..Released::default()
    };
    assert_eq!(answer, too_short);
}

#[test]
fn p10_the_empty_sheet_leaves_227_bytes_with_bounds_of_plus_zero() {
    let (answer, out) = Compared::new().release(&p9_file(), &[], &[0xEE; 227]);
    let released = Released {
        length: 227,
        ..Released::default()
    };
    assert_eq!(answer, released);
    assert_eq!(out[179..227], [0; 48]);
}

#[test]
fn slips_that_look_right_are_not_made() {
    // Negative X only; return number 2 of 5; extra header bytes; text tails.
    let mut point = [-5i32, 7, -9].map(i32::to_le_bytes).concat();
    point.extend([0, 0, 0o52, 2, 0, 0, 0, 0]);
    let spec = FileSpec {
        system: *b"scanner\0tail tail tail tail tail",
        header_extra: b"extra header bytes".to_vec(),
        scale: [1.0; 3],
        points: vec![point.clone(), point],
        ..FileSpec::bare(0)
    };
    let sheet = SheetSpec::new([LineSpec::Classes(2, 2)]).bytes();
    let (answer, out) = Compared::new().release(&spec.bytes(), &sheet, &[0xEE; 300]);
    assert_eq!((answer.length, answer.points), (267, 2));
    assert_eq!(
        out[26..58],
        *b"scanner\0\0\0\0\0\0\0\0\0\0\0\0\0\0\0\0\0\0\0\0\0\0\0\0\0"
    );
    let bins: Vec<u8> = out[111..131].iter().copied().step_by(4).collect();
    assert_eq!(bins, [0, 2, 0, 0, 0]);
    let bounds = [-5f64, -5.0, 7.0, 7.0, -9.0, -9.0]
        .map(f64::to_le_bytes)
        .concat();
    assert_eq!(out[179..227], bounds);
}

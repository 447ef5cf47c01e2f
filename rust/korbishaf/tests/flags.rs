//! The three flags beside a class: in points, in records and in releases.

use korbishaf::{Point, Sheet, bytes, class_kept, decode, encode, release_to_vec};

/// The formats, each with the size of its records.
const FORMATS: [(u8, u16); 4] = [(0, 20), (1, 28), (2, 26), (3, 34)];

/// A file of format 0 with a point for each classification byte, from 0 to 255.
fn of_every_byte() -> Vec<u8> {
    let mut file = vec![0; 227];
    file[..4].copy_from_slice(b"LASF");
    file[24..26].copy_from_slice(&[1, 2]);
    file[94..96].copy_from_slice(&227u16.to_le_bytes());
    file[96..100].copy_from_slice(&227u32.to_le_bytes());
    file[105..107].copy_from_slice(&20u16.to_le_bytes());
    file[107..111].copy_from_slice(&256u32.to_le_bytes());
    for scale in [131, 139, 147] {
        file[scale..scale + 8].copy_from_slice(&1f64.to_le_bytes());
    }
    for byte in 0..=255u8 {
        let mut record = [0; 20];
        // X is the byte, so that the bounds say which points are there
        (record[0], record[15]) = (byte, byte);
        file.extend(record);
    }
    file
}

/// The classification bytes of the points that a sheet releases of that file.
fn released(sheet: &str) -> Vec<u8> {
    let sheet = Sheet::from_text(sheet).unwrap();
    let out = release_to_vec(&of_every_byte(), &sheet).unwrap();
    let header = korbishaf::read_header(&out).unwrap();
    let kept: Vec<u8> = out[227..].chunks(20).map(|record| record[15]).collect();
    assert_eq!(header.point_count as usize, kept.len());
    let [least, most] = [kept.first(), kept.last()].map(|byte| byte.copied().unwrap_or(0));
    assert_eq!(
        (header.min[0], header.max[0]),
        (least.into(), most.into()),
        "{kept:?}"
    );
    kept
}

#[test]
fn every_byte_has_a_class_and_three_flags_and_comes_back() {
    for byte in 0..=255 {
        for (format, size) in FORMATS {
            let mut record = vec![0x55; size.into()];
            record[15] = byte;
            let point = decode(format, size, &record).unwrap();
            let flags = [point.synthetic, point.key_point, point.withheld];
            assert_eq!(point.classification, byte % 32);
            assert_eq!(flags, [32, 64, 128].map(|bit| byte / bit % 2 == 1));
            let mut room = vec![0xEE; size.into()];
            assert_eq!(encode(format, size, &point, &mut room), Ok(()));
            assert_eq!(room, record);
        }
    }
}

#[test]
fn the_points_of_a_file_have_their_flags() {
    let file = of_every_byte();
    for (byte, found) in (0..=255).zip(korbishaf::points(&file).unwrap()) {
        let wanted = Point {
            x: byte,
            classification: (byte & 31) as u8,
            synthetic: byte & 32 != 0,
            key_point: byte & 64 != 0,
            withheld: byte & 128 != 0,
            ..Point::default()
        };
        assert_eq!(found.point, wanted);
        assert_eq!(korbishaf::point_at(&file, byte as u64), Ok(found));
    }
}

#[test]
fn a_class_above_31_is_not_encoded() {
    for classification in 0..=255 {
        for flags in 0..8 {
            let point = Point {
                classification,
                synthetic: flags & 1 != 0,
                key_point: flags & 2 != 0,
                withheld: flags & 4 != 0,
                ..Point::default()
            };
            let mut room = [0xEE; 21];
            let number = |answer: Result<(), korbishaf::Error>| answer.map_err(|no| no.number());
            assert_eq!(number(encode(0, 20, &point, &mut room)), Err(12));
            assert_eq!(room, [0xEE; 21]);
            let answer = number(encode(0, 20, &point, &mut room[..20]));
            if classification < 32 {
                assert_eq!((answer, room[15]), (Ok(()), classification + 32 * flags));
            } else {
                assert_eq!((answer, room), (Err(13), [0xEE; 21]));
            }
        }
    }
}

#[test]
fn synthetic_points_and_key_points_go_out_with_their_class() {
    assert_eq!(released("class 2"), [2, 34, 66, 98]);
    assert_eq!(released("class 31"), [31, 63, 95, 127]);
    assert_eq!(
        released("class 0\nclass 8"),
        [0, 8, 32, 40, 64, 72, 96, 104]
    );
}

#[test]
fn withheld_points_never_go_out() {
    let not_withheld: Vec<u8> = (0..128).collect();
    assert_eq!(released("class 0-255"), not_withheld);
    assert_eq!(released("class 0-31"), not_withheld);
    assert_eq!(released("class 130\nclass 128-255"), []);
}

#[test]
fn lines_above_31_are_good_and_keep_no_point() {
    assert_eq!(released("class 66"), []);
    assert_eq!(released("class 32-255"), []);
    let from_20_to_31: Vec<u8> = (0..128).filter(|byte| byte % 32 >= 20).collect();
    assert_eq!(released("class 20-200"), from_20_to_31);
}

/// A class that is asked about is one number, and no byte with flags in it.
#[test]
fn the_question_of_a_class_knows_no_flags() {
    for line in ["class 2", "class 66", "class 40-200"] {
        let sheet = Sheet::from_text(line).unwrap();
        assert_eq!(sheet.to_text(), format!("{line}\n"));
        let [lowest, highest] = [sheet.as_bytes()[3], sheet.as_bytes()[4]];
        for class in 0..=255 {
            let wanted = (lowest..=highest).contains(&class);
            assert_eq!(class_kept(&sheet, class), wanted, "{line}, {class}");
            assert_eq!(bytes::class_kept(sheet.as_bytes(), class), Ok(wanted));
        }
    }
}

//! The samples of the specification and the sample cards, through the wrappers.

use korbishaf::{ClassLine, GeoKeyValue, Guid, PlacedPoint, Point, Record, Released, Sheet, bytes};
use std::fs;
use std::path::Path;

/// Keeps class 2 alone (sample P3).
const CLASS_2: [u8; 5] = [0x4B, 0x53, 1, 2, 2];

/// A text field: the text and zeros behind it, with junk at the end where there is room for some.
fn text(text: &[u8], width: usize) -> Vec<u8> {
    let mut field = text.to_vec();
    field.resize(width, 0);
    if text.len() + 1 < width {
        field[width - 1] = b'?';
    }
    field
}

/// A variable length record.
fn record(user_id: &[u8], record_id: u16, description: &[u8], payload: &[u8]) -> Vec<u8> {
    let length = payload.len() as u16;
    [
        &[0xAA, 0xBB],
        &*text(user_id, 16),
        &record_id.to_le_bytes(),
        &length.to_le_bytes(),
        &*text(description, 32),
        payload,
    ]
    .concat()
}

/// A file of these records and points, of format 1 and 28 bytes a point, with a gap before the points.
fn file(records: &[Vec<u8>], gap: usize, points: &[Point]) -> Vec<u8> {
    let offset = 227 + records.concat().len() + gap;
    let mut file = [
        &b"LASF"[..],
        &[7, 0, 1, 0],
        &[
            0x33, 0x22, 0x11, 0x00, 0x55, 0x44, 0x77, 0x66, 8, 9, 10, 11, 12, 13, 14, 15,
        ],
        &[1, 2],
        &text(b"a system", 32),
        &text(b"0123456789ABCDEF0123456789abcdef", 32),
        &200u16.to_le_bytes(),
        &2011u16.to_le_bytes(),
        &227u16.to_le_bytes(),
        &(offset as u32).to_le_bytes(),
        &(records.len() as u32).to_le_bytes(),
        &[1],
        &28u16.to_le_bytes(),
        &(points.len() as u32).to_le_bytes(),
        &[1, 0, 0, 0, 2, 0, 0, 0, 3, 0, 0, 0, 4, 0, 0, 0, 5, 0, 0, 0],
    ]
    .concat();
    for number in [
        0.5, 0.25, 0.01, 10.0, -20.0, 0.0, 1.0, -1.0, 2.0, -2.0, 3.0, -3.0f64,
    ] {
        file.extend(number.to_le_bytes());
    }
    assert_eq!(file.len(), 227);
    file.extend(records.concat());
    file.resize(offset, 0xCC);
    for point in points {
        let mut room = [0; 28];
        korbishaf::encode(1, 28, point, &mut room).unwrap();
        file.extend(room);
    }
    file
}

/// The file of sample P9: a record of 10 bytes, and two points of which one is of class 2.
fn p9() -> Vec<u8> {
    let kept = Point {
        x: -1,
        y: 100,
        return_number: 1,
        returns: 2,
        classification: 2,
        ..Point::default()
    };
    let other = Point {
        x: 50,
        y: -100,
        z: 9,
        classification: 3,
        ..Point::default()
    };
    let file = file(
        &[record(b"someone", 7, b"a record", b"0123456789")],
        0,
        &[other, kept],
    );
    assert_eq!(file.len(), 347);
    file
}

/// The sheet of bytes that pass.
fn sheet(bytes: &[u8]) -> Sheet {
    Sheet::from_bytes(bytes).unwrap()
}

fn number<T: std::fmt::Debug>(answer: Result<T, korbishaf::Error>) -> u64 {
    answer.unwrap_err().number()
}

#[test]
fn level() {
    assert_eq!(korbishaf::level(), 7);
}

#[test]
fn files_p1_p2() {
    for file in [&[][..], &[0; 226]] {
        assert_eq!(number(korbishaf::check_file(file)), 1);
        assert_eq!(number(korbishaf::read_header(file)), 1);
        assert_eq!(number(korbishaf::records(file)), 1);
        assert_eq!(number(korbishaf::points(file)), 1);
        assert_eq!(number(korbishaf::point_at(file, 0)), 1);
        assert_eq!(number(korbishaf::geokey(file, 1024)), 1);
        assert_eq!(number(korbishaf::geokey_by_halving(file, 1024).value), 1);
        assert_eq!(number(korbishaf::release_to_vec(file, &Sheet::new())), 1);
        assert_eq!(number(bytes::release_to_vec(file, &[])), 1);
        assert_eq!(number(korbishaf::cutting_list(file, &Sheet::new())), 1);
        assert_eq!(number(bytes::cutting_list(file, &[])), 1);
    }
    assert_eq!(number(korbishaf::check_file(&[0; 227])), 2);
    assert_eq!(korbishaf::check_file(&p9()), Ok(()));
}

#[test]
fn damaged_files() {
    let damage = |at: usize, bytes: &[u8]| {
        let mut file = p9();
        file[at..at + bytes.len()].copy_from_slice(bytes);
        number(korbishaf::check_file(&file))
    };
    assert_eq!(damage(0, b"l"), 2);
    assert_eq!(damage(25, &[3]), 3);
    assert_eq!(damage(94, &[226, 0]), 4);
    assert_eq!(damage(104, &[4]), 5);
    assert_eq!(damage(105, &[27, 0]), 6);
    assert_eq!(damage(96, &[226, 0]), 7);
    assert_eq!(damage(100, &[2]), 8);
    assert_eq!(damage(107, &[3]), 9);
    assert_eq!(damage(131, &f64::NAN.to_le_bytes()), 10);
}

#[test]
fn sheets_p3_to_p6() {
    for class in 0..=255 {
        assert_eq!(bytes::class_kept(&CLASS_2, class), Ok(class == 2));
        assert_eq!(bytes::class_kept(&[], class), Ok(false));
        assert_eq!(korbishaf::class_kept(&sheet(&CLASS_2), class), class == 2);
        assert!(!korbishaf::class_kept(&Sheet::new(), class));
    }
    for (refused, wanted) in [
        (&[0x4B, 0x53, 1, 3, 2][..], 23),
        (&[0x4B, 0x53], 22),
        (&[0x4B, 0x54, 1], 20),
        (&[0x4B, 0x53, 4], 21),
        (&CLASS_2.repeat(65), 24),
    ] {
        assert_eq!(number(Sheet::from_bytes(refused)), wanted);
        assert_eq!(number(bytes::check_sheet(refused)), wanted);
        assert_eq!(number(bytes::class_kept(refused, 2)), wanted);
        assert_eq!(number(bytes::class_test(refused, 2)), wanted);
        assert_eq!(number(bytes::record_kept(refused, b"", 2)), wanted);
        assert_eq!(number(bytes::release_to_vec(&p9(), refused)), wanted);
        assert_eq!(number(bytes::release(&p9(), refused, &mut [])), wanted);
        assert_eq!(number(bytes::release(&[], refused, &mut [])), 1);
    }
    assert_eq!(bytes::check_sheet(&CLASS_2.repeat(64)), Ok(()));
}

/// The lines that are looked at for a class, under sheets of the bytes of P3 and of other lines.
#[test]
fn class_lines() {
    let (wide, record) = (
        b"KS\x01\x14\xC8",
        b"KS\x02yard\0\0\0\0\0\0\0\0\0\0\0\0\x07\x00",
    );
    for (whole, class, kept, lines) in [
        (&[][..], 2, false, 0),
        (&CLASS_2, 2, true, 1),
        (&CLASS_2, 1, false, 1),
        (&CLASS_2, 3, false, 1),
        (&CLASS_2, 66, false, 1),
        (&CLASS_2.repeat(64), 2, true, 1),
        (&CLASS_2.repeat(64), 0, false, 64),
        (&[&record.repeat(63)[..], &CLASS_2].concat(), 2, true, 64),
        (&[&record[..], &CLASS_2, wide].concat(), 2, true, 2),
        (&[&record[..], &CLASS_2, wide].concat(), 7, false, 3),
        (&[&CLASS_2[..], record, wide, wide].concat(), 20, true, 3),
        (&[&CLASS_2[..], record, wide, wide].concat(), 200, true, 3),
        (&[&CLASS_2[..], record, wide, wide].concat(), 201, false, 4),
    ] {
        let wanted = ClassLine { kept, lines };
        assert_eq!(bytes::class_test(whole, class), Ok(wanted));
        assert_eq!(korbishaf::class_test(&sheet(whole), class), wanted);
    }
}

#[test]
fn a_fault_behind_the_line_that_answers_is_given() {
    for (fault, wanted) in [
        (&[0x4B, 0x54, 1][..], 20),
        (&[0x4B, 0x53, 4, 2, 2], 21),
        (&[0x4B, 0x53, 1, 2], 22),
        (&[0x4B, 0x53, 1, 3, 2], 23),
        (&CLASS_2.repeat(64), 24),
    ] {
        let whole = [&CLASS_2, fault].concat();
        for class in [2, 3] {
            assert_eq!(number(bytes::class_test(&whole, class)), wanted);
        }
    }
}

#[test]
fn kept_records() {
    let someone = *b"KS\x02someone\0and more\x07\x00";
    let padded = *b"KS\x02someone         \x07\x00";
    let spaces = *b"KS\x02                \x07\x00";
    for (lines, user_id, record_id, kept) in [
        (&someone[..], &b"someone"[..], 7, true),
        (&someone, b"someone\0else", 7, true),
        (&someone, b"someone", 8, false),
        (&someone, b"someon", 7, false),
        (&someone, b"", 7, false),
        (&someone, b"someone  ", 7, true),
        (&someone, b"someone                       ", 7, true),
        (&someone, b"someone  \0else", 7, true),
        (&someone, b"someone else ", 7, false),
        (&someone, b" someone", 7, false),
        (&someone, b"someone\t", 7, false),
        (&padded, b"someone", 7, true),
        (&padded, b"someone ", 7, true),
        (&padded, b"someone", 8, false),
        (&spaces, b"", 7, true),
        (&spaces, b"   ", 7, true),
        (&spaces, b" \0x", 7, true),
        (&spaces, b" x", 7, false),
        (&[], b"someone", 7, false),
    ] {
        assert_eq!(bytes::record_kept(lines, user_id, record_id), Ok(kept));
        let lines = sheet(lines);
        assert_eq!(korbishaf::record_kept(&lines, user_id, record_id), kept);
    }
}

#[test]
fn a_point_p7() {
    let bytes = [
        0xFF, 0xFF, 0xFF, 0xFF, 100, 0, 0, 0, 0, 0, 0, 0, 0x2C, 1, 0x11, 2, 0xFD, 0, 7, 0,
    ];
    let point = Point {
        x: -1,
        y: 100,
        intensity: 300,
        return_number: 1,
        returns: 2,
        classification: 2,
        scan_angle: -3,
        source_id: 7,
        ..Point::default()
    };
    assert_eq!(korbishaf::decode(0, 20, &bytes), Ok(point));
    let mut room = [0; 20];
    assert_eq!(korbishaf::encode(0, 20, &point, &mut room), Ok(()));
    assert_eq!(room, bytes);
}

#[test]
fn points_there_and_back() {
    let point = Point {
        x: i32::MIN,
        y: i32::MAX,
        z: -2,
        intensity: 0x1234,
        return_number: 7,
        returns: 5,
        scan_direction: true,
        edge: true,
        classification: 31,
        scan_angle: -128,
        user_data: 0xEF,
        source_id: 0xFEDC,
        gps_time_bits: 0x7FF0_0000_0000_0001,
        red: 0x1122,
        green: 0x3344,
        blue: 0x5566,
        synthetic: true,
        key_point: true,
        withheld: true,
    };
    for (format, size) in [(0, 20u16), (1, 28), (2, 26), (3, 34)] {
        let length = size + 3;
        let mut room = vec![0xEE; usize::from(length)];
        korbishaf::encode(format, length, &point, &mut room).unwrap();
        assert_eq!(room[usize::from(size)..], [0xEE; 3]);
        let mut wanted = point;
        if format % 2 == 0 {
            wanted.gps_time_bits = 0;
        }
        if format < 2 {
            (wanted.red, wanted.green, wanted.blue) = (0, 0, 0);
        }
        assert_eq!(korbishaf::decode(format, length, &room), Ok(wanted));
    }
    for flags in 0..4 {
        let mut room = [0; 20];
        let point = Point {
            scan_direction: flags & 1 != 0,
            edge: flags & 2 != 0,
            ..Point::default()
        };
        korbishaf::encode(0, 20, &point, &mut room).unwrap();
        assert_eq!(room[14], flags << 6);
    }
}

#[test]
fn points_refused() {
    assert_eq!(number(korbishaf::decode(0, 20, &[])), 12);
    assert_eq!(number(korbishaf::decode(0, 0, &[])), 12);
    assert_eq!(number(korbishaf::decode(1, 27, &[0; 27])), 12);
    assert_eq!(number(korbishaf::decode(4, 60, &[0; 60])), 12);
    let mut room = [0xEE; 20];
    let point = Point {
        return_number: 8,
        ..Point::default()
    };
    assert_eq!(number(korbishaf::encode(0, 21, &point, &mut room)), 12);
    assert_eq!(number(korbishaf::encode(0, 20, &point, &mut room)), 13);
    let point = Point {
        returns: 8,
        ..Point::default()
    };
    assert_eq!(number(korbishaf::encode(0, 20, &point, &mut room)), 13);
    assert_eq!(room, [0xEE; 20]);
    assert_eq!(number(korbishaf::encode(0, 20, &point, &mut [])), 12);
}

#[test]
fn a_coordinate_p8() {
    let nine_and_a_half = korbishaf::coordinate(-1, 0.5, 10.0);
    assert_eq!(
        nine_and_a_half.to_le_bytes(),
        [0, 0, 0, 0, 0, 0, 0x23, 0x40]
    );
    assert_eq!(korbishaf::coordinate(3, 0.1, 0.2), 3.0 * 0.1 + 0.2);
    assert_eq!(
        korbishaf::coordinate(0, f64::INFINITY, 1.0).to_bits(),
        0x7FF8_0000_0000_0000
    );
    assert_eq!(
        korbishaf::coordinate(1, -f64::NAN, 1.0).to_bits(),
        0x7FF8_0000_0000_0000
    );
}

#[test]
fn a_header() {
    let file = p9();
    let header = korbishaf::read_header(&file).unwrap();
    let guid = Guid {
        data_1: 0x0011_2233,
        data_2: 0x4455,
        data_3: 0x6677,
        data_4: [8, 9, 10, 11, 12, 13, 14, 15],
    };
    assert_eq!(
        (header.file_source_id, header.global_encoding, header.guid),
        (7, 1, guid)
    );
    assert_eq!(header.version, (1, 2));
    assert_eq!(header.system_identifier, b"a system");
    assert_eq!(
        header.generating_software,
        b"0123456789ABCDEF0123456789abcdef"
    );
    assert_eq!((header.creation_day, header.creation_year), (200, 2011));
    assert_eq!(
        (header.header_size, header.point_offset, header.record_count),
        (227, 291, 1)
    );
    assert_eq!(
        (
            header.point_format,
            header.record_length,
            header.point_count
        ),
        (1, 28, 2)
    );
    assert_eq!(header.points_by_return, [1, 2, 3, 4, 5]);
    assert_eq!(
        (header.scale, header.offset),
        ([0.5, 0.25, 0.01], [10.0, -20.0, 0.0])
    );
    assert_eq!(
        (header.max, header.min),
        ([1.0, 2.0, 3.0], [-1.0, -2.0, -3.0])
    );
    let point = Point {
        x: -1,
        y: 4,
        ..Point::default()
    };
    assert_eq!(header.coordinates(&point), [9.5, -19.0, 0.0]);
}

#[test]
fn a_walk() {
    let bytes = file(
        &[
            record(b"someone", 7, b"a record", b"0123456789"),
            record(b"0123456789abcdef", 65535, b"", b""),
            record(b"", 0, b"0123456789ABCDEF0123456789abcdef", &[0; 300]),
        ],
        100,
        &[],
    );
    let walk = korbishaf::records(&bytes).unwrap();
    assert_eq!(walk.len(), 3);
    let found: Vec<_> = walk.clone().collect();
    assert_eq!(
        found,
        [
            Record {
                user_id: b"someone",
                record_id: 7,
                description: b"a record",
                payload: b"0123456789"
            },
            Record {
                user_id: b"0123456789abcdef",
                record_id: 65535,
                description: b"",
                payload: b""
            },
            Record {
                user_id: b"",
                record_id: 0,
                description: b"0123456789ABCDEF0123456789abcdef",
                payload: &[0; 300],
            },
        ]
    );
    let mut walk = walk.skip(3);
    assert_eq!((walk.next(), walk.next()), (None, None));

    let first = korbishaf::step(&bytes, 0, 227).unwrap();
    assert_eq!(
        (first.record, first.next_index, first.next_position),
        (found[0], 1, 291)
    );
    assert_eq!(number(korbishaf::step(&bytes, 3, 227)), 18);
    assert_eq!(number(korbishaf::step(&bytes, 0, 226)), 18);
    assert_eq!(number(korbishaf::step(&bytes, 0, u64::MAX)), 18);
    assert_eq!(korbishaf::records(&file(&[], 0, &[])).unwrap().count(), 0);
}

/// The file of sample P9 with texts that are padded with spaces. The record's description is spaces alone.
fn padded() -> Vec<u8> {
    let mut file = p9();
    file[26..58].copy_from_slice(b"a system                        ");
    file[58..90].copy_from_slice(b" two words   \0 junk             ");
    file[229..245].copy_from_slice(b"someone         ");
    file[249..281].copy_from_slice(&[b' '; 32]);
    file
}

#[test]
fn texts_padded_with_spaces() {
    let file = padded();
    let header = korbishaf::read_header(&file).unwrap();
    assert_eq!(header.system_identifier, b"a system");
    assert_eq!(header.generating_software, b" two words");
    let wanted = Record {
        user_id: b"someone",
        record_id: 7,
        description: b"",
        payload: b"0123456789",
    };
    assert!(korbishaf::records(&file).unwrap().eq([wanted]));
    assert_eq!(korbishaf::step(&file, 0, 227).unwrap().record, wanted);
}

#[test]
fn a_release_has_zeros_where_texts_were_padded_with_spaces() {
    let sheet = Sheet::from_text("record someone 7").unwrap();
    let out = korbishaf::release_to_vec(&padded(), &sheet).unwrap();
    assert_eq!(out.len(), 291);
    assert_eq!(out[26..34], *b"a system");
    assert_eq!(out[34..58], [0; 24]);
    assert_eq!(out[58..68], *b" two words");
    assert_eq!(out[68..90], [0; 22]);
    assert_eq!(out[227..245], *b"\0\0someone\0\0\0\0\0\0\0\0\0");
    assert_eq!(out[249..281], [0; 32]);
    assert_eq!(out[281..], *b"0123456789");
}

#[test]
fn points_of_a_file() {
    let file = p9();
    let found = korbishaf::points(&file).unwrap();
    assert_eq!(found.len(), 2);
    let found: Vec<PlacedPoint> = found.collect();
    assert_eq!(
        (
            found[0].place,
            found[0].point.x,
            found[0].point.classification
        ),
        (291, 50, 3)
    );
    assert_eq!(
        (
            found[1].place,
            found[1].point.x,
            found[1].point.classification
        ),
        (319, -1, 2)
    );
    for (index, point) in found.iter().enumerate() {
        assert_eq!(korbishaf::point_at(&file, index as u64), Ok(*point));
    }
    assert_eq!(number(korbishaf::point_at(&file, 2)), 11);
    assert_eq!(number(korbishaf::point_at(&file, u64::MAX)), 11);
}

fn words(words: &[u16]) -> Vec<u8> {
    words.iter().flat_map(|word| word.to_le_bytes()).collect()
}

#[test]
fn geokeys_of_a_padded_name() {
    let directory = words(&[1, 1, 0, 2, 1024, 0, 1, 2, 1026, 34737, 4, 5]);
    let records = [
        record(b"LASF_Projection ", 34735, b"keys", &directory),
        record(b"LASF_Projection ", 34737, b"texts", b"Name|    "),
    ];
    let file = file(&records, 0, &[]);
    assert_eq!(korbishaf::geokey(&file, 1024), Ok(GeoKeyValue::Short(2)));
    // a key's text is payload and no text field
    let text = GeoKeyValue::Text(b"    ");
    assert_eq!(korbishaf::geokey(&file, 1026), Ok(text));
}

#[test]
fn geokeys() {
    let directory = words(&[
        1, 1, 0, 9, // version, revision, number of keys
        1024, 0, 1, 2, // a short
        2057, 34736, 1, 1, // a double
        1026, 34737, 4, 5, // a text
        1027, 34737, 0, 9, // an empty text at the end
        3000, 34767, 1, 0, // 43
        3001, 0, 2, 0, // 44
        3002, 34736, 1, 2, // 46
        3003, 34737, 5, 5, // 46
        1024, 0, 1, 9, // not the first
    ]);
    let name = b"LASF_Projection";
    let doubles = [1.0f64.to_le_bytes(), 6378137.5f64.to_le_bytes()].concat();
    let key_record = record(name, 34735, b"keys", &directory);
    let double_record = record(name, 34736, b"doubles", &doubles);
    let text_record = record(name, 34737, b"texts", b"Name|Text");

    let whole = file(&[key_record.clone(), double_record, text_record], 0, &[]);
    let look = |key| korbishaf::geokey(&whole, key);
    assert_eq!(look(1024), Ok(GeoKeyValue::Short(2)));
    assert_eq!(look(2057), Ok(GeoKeyValue::Double(6378137.5)));
    assert_eq!(look(1026), Ok(GeoKeyValue::Text(b"Text")));
    assert_eq!(look(1027), Ok(GeoKeyValue::Text(b"")));
    assert_eq!(number(look(1)), 42);
    assert_eq!(number(look(3000)), 43);
    assert_eq!(number(look(3001)), 44);
    assert_eq!(number(look(3002)), 46);
    assert_eq!(number(look(3003)), 46);

    let parameters_absent = file(&[key_record], 0, &[]);
    assert_eq!(number(korbishaf::geokey(&parameters_absent, 2057)), 45);
    assert_eq!(number(korbishaf::geokey(&file(&[], 0, &[]), 1024)), 40);
    let short = file(&[record(name, 34735, b"", &directory[..79])], 0, &[]);
    assert_eq!(number(korbishaf::geokey(&short, 1024)), 41);
}

#[test]
fn a_release_p9() {
    let (file, class_2) = (p9(), sheet(&CLASS_2));
    let mut out = [0xEE; 260];
    let released = Released {
        length: 255,
        points: 1,
        records: 0,
    };
    assert_eq!(
        korbishaf::release(&file, &class_2, &mut out[..255]),
        Ok(released)
    );
    assert_eq!(out[227..255], file[319..347]);
    assert_eq!(out[255..], [0xEE; 5]);
    let header = korbishaf::read_header(&out[..255]).unwrap();
    assert_eq!(
        (header.point_offset, header.record_count, header.point_count),
        (227, 0, 1)
    );
    assert_eq!(header.points_by_return, [1, 0, 0, 0, 0]);
    assert_eq!((header.max, header.min), ([9.5, 5.0, 0.0], [9.5, 5.0, 0.0]));
    assert_eq!(
        korbishaf::release_to_vec(&file, &class_2).unwrap(),
        out[..255]
    );

    let mut long = [0xEE; 260];
    assert_eq!(korbishaf::release(&file, &class_2, &mut long), Ok(released));
    assert_eq!(long[..255], out[..255]);
    assert_eq!(long[255..], [0; 5]);

    let mut short = [0xEE; 254];
    let refused = korbishaf::release(&file, &class_2, &mut short).unwrap_err();
    assert_eq!((refused.number(), refused.needed()), (30, Some(255)));
    assert_eq!(short, [0xEE; 254]);
    let refused = korbishaf::release(&file, &class_2, &mut []).unwrap_err();
    assert_eq!((refused.number(), refused.needed()), (30, Some(255)));
}

#[test]
fn a_release_p10() {
    let out = korbishaf::release_to_vec(&p9(), &Sheet::new()).unwrap();
    assert_eq!(out.len(), 227);
    assert_eq!(out[179..], [0; 48]);
}

#[test]
fn cards() {
    let cards = Path::new(env!("CARGO_MANIFEST_DIR")).join("../../cards");
    for card in ["survey", "yard"] {
        let read = |name| fs::read(cards.join(card).join(name)).unwrap();
        let (file, expected) = (read("in.las"), read("expected.las"));
        let sheet = Sheet::read(read("sheet.bin")).unwrap();
        let mut out = vec![0xEE; file.len()];
        let released = korbishaf::release(&file, &sheet, &mut out).unwrap();
        let line = format!(
            "released {} points {} records {}\n",
            released.length, released.points, released.records
        );
        assert_eq!(line.as_bytes(), read("line"), "{card}");
        assert!(out[..released.length] == expected, "{card}");
        assert!(
            out[released.length..].iter().all(|&byte| byte == 0),
            "{card}"
        );
        let again = Sheet::read(sheet.to_text()).unwrap();
        for sheet in [sheet, again] {
            let released = korbishaf::release_to_vec(&file, &sheet).unwrap();
            assert!(released == expected, "{card}");
        }
    }
}

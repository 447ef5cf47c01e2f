//! Cutting lists and releases from them, against lines that were worked out by hand.

use korbishaf::{CuttingLine, ErrorKind, Released, Sheet, bytes};
use korbishaf::{cutting_list, cutting_list_into, most_lines, release, release_by_list};
use std::fs;
use std::path::Path;

/// A card's file and sheet, and the places and lengths that its list has.
struct Card {
    file: Vec<u8>,
    sheet: Sheet,
    lines: Vec<CuttingLine>,
}

/// The header has 240 bytes. Behind it are records with payloads of 14, 24 and 15 bytes, of which the second is kept, a
/// gap of 9 bytes, and from 464 on twelve points, of which nine are kept.
fn yard() -> Card {
    let points = [464, 520, 548, 576, 632, 660, 688, 744, 772];
    card("yard", &[(362, 24)], (&points, 28))
}

/// Behind a header of 227 bytes are records with payloads of 17, 32, 16, 8 and 4 bytes, of which the second and the
/// fourth are kept, and from 574 on eight points with extra bytes, of which five are kept.
fn survey() -> Card {
    let points = [574, 654, 734, 774, 854];
    card("survey", &[(352, 32), (508, 8)], (&points, 40))
}

fn card(name: &str, payloads: &[(u64, u64)], (points, length): (&[u64], u64)) -> Card {
    let folder = Path::new(env!("CARGO_MANIFEST_DIR")).join("../../cards");
    let read = |file| fs::read(folder.join(name).join(file)).unwrap();
    let points = points.iter().map(|&place| (place, length));
    let lines: Vec<_> = payloads.iter().copied().chain(points).collect();
    Card {
        file: read("in.las"),
        sheet: Sheet::from_bytes(read("sheet.bin")).unwrap(),
        lines: of(&lines),
    }
}

/// Lines of these places and lengths.
fn of(lines: &[(u64, u64)]) -> Vec<CuttingLine> {
    let lines = lines.iter();
    lines
        .map(|&(place, length)| CuttingLine { place, length })
        .collect()
}

/// A list of so many lines to be lent, no two of which are the same.
fn lent(lines: usize) -> Vec<CuttingLine> {
    let lines: Vec<_> = (0..lines as u64).map(|line| (!line, 7 * line)).collect();
    of(&lines)
}

/// A lent list whose front was filled with these lines.
fn filled(lines: &[CuttingLine], length: usize) -> Vec<CuttingLine> {
    [lines, &lent(length)[lines.len()..]].concat()
}

#[test]
fn the_lists_of_the_cards() {
    for Card { file, sheet, lines } in [yard(), survey()] {
        assert_eq!(cutting_list(&file, &sheet), Ok(lines.clone()));
        assert_eq!(
            bytes::cutting_list(&file, sheet.as_bytes()),
            Ok(lines.clone())
        );
        let again = Sheet::from_text(sheet.to_text()).unwrap();
        assert_eq!(cutting_list(&file, &again), Ok(lines));
    }
}

#[test]
fn lines_behind_the_last_stay_as_they_were() {
    for Card { file, sheet, lines } in [yard(), survey()] {
        for length in lines.len()..lines.len() + 4 {
            let mut list = lent(length);
            let answer = cutting_list_into(&file, &sheet, &mut list);
            assert_eq!(answer, Ok(lines.len()));
            assert_eq!(list, filled(&lines, length));
        }
    }
}

#[test]
fn a_list_that_is_too_short_is_refused_with_31() {
    for Card { file, sheet, lines } in [yard(), survey()] {
        for length in 0..lines.len() {
            let mut list = lent(length);
            let refused = cutting_list_into(&file, &sheet, &mut list).unwrap_err();
            assert_eq!((refused.number(), refused.needed()), (31, None));
            assert_eq!(refused.kind(), ErrorKind::ListTooShort);
            let words = "refused 31: the list is shorter than the kept records and points together";
            assert_eq!(refused.to_string(), words);
            assert_eq!(list, lent(length));
        }
    }
}

#[test]
fn where_nothing_is_kept_an_empty_list_is_long_enough() {
    for Card { file, .. } in [yard(), survey()] {
        for sheet in ["", "class 31", "class 32-255", "record yard 9"] {
            let sheet = Sheet::from_text(sheet).unwrap();
            assert_eq!(cutting_list(&file, &sheet), Ok(vec![]));
            for length in [0, 1, 5] {
                let (mut list, mut out) = (lent(length), [0xEE; 230]);
                assert_eq!(cutting_list_into(&file, &sheet, &mut list), Ok(0));
                let released = release_by_list(&file, &sheet, &mut out, &mut list);
                let nothing = Released {
                    length: 227,
                    points: 0,
                    records: 0,
                };
                assert_eq!(released, Ok(nothing));
                assert_eq!(out[227..], [0; 3]);
                assert_eq!(list, lent(length));
            }
        }
    }
}

/// Outputs and lists of all telling lengths: the list is looked at first.
#[test]
fn a_release_by_its_list_is_the_release() {
    for Card { file, sheet, lines } in [yard(), survey()] {
        let needed = korbishaf::release_to_vec(&file, &sheet).unwrap().len();
        for room in [0, 226, 227, needed - 1, needed, needed + 1, file.len()] {
            let mut wanted = vec![0xEE; room];
            let answer = release(&file, &sheet, &mut wanted);
            assert_eq!(answer.is_ok(), room >= needed);
            for length in 0..lines.len() + 3 {
                let (mut out, mut list) = (vec![0xEE; room], lent(length));
                let found = release_by_list(&file, &sheet, &mut out, &mut list);
                if length < lines.len() {
                    assert_eq!(found.unwrap_err().number(), 31);
                    assert!(out == vec![0xEE; room]);
                } else {
                    assert_eq!(found, answer);
                    assert!(out == wanted);
                }
                let is_filled = length >= lines.len() && room >= needed;
                let kept = if is_filled { &lines[..] } else { &[] };
                assert_eq!(list, filled(kept, length));
            }
        }
    }
}

/// Of a released file all but the header and those of records is in the list.
#[test]
fn the_parts_are_what_is_released() {
    for (Card { file, sheet, lines }, records) in [(yard(), 1), (survey(), 2)] {
        let out = korbishaf::release_to_vec(&file, &sheet).unwrap();
        let mut at = 227;
        for (index, line) in lines.iter().enumerate() {
            at += if index < records { 54 } else { 0 };
            let part = line.part_of(&file).unwrap();
            assert_eq!(out[at..at + part.len()], *part);
            at += part.len();
        }
        assert_eq!(at, out.len());
    }
}

/// A file of two records without payloads and, directly behind them, a point of 20 bytes of class 2.
fn without_payloads() -> Vec<u8> {
    let mut file = vec![0; 227 + 2 * 54 + 20];
    file[..4].copy_from_slice(b"LASF");
    file[24..26].copy_from_slice(&[1, 2]);
    file[94..96].copy_from_slice(&227u16.to_le_bytes());
    file[96..100].copy_from_slice(&335u32.to_le_bytes());
    file[100] = 2;
    file[105] = 20;
    file[107] = 1;
    for scale in [131, 139, 147] {
        file[scale..scale + 8].copy_from_slice(&1f64.to_le_bytes());
    }
    for (place, name, record_id) in [(227, b"crew", 1), (281, b"yard", 7)] {
        file[place + 2..place + 6].copy_from_slice(name);
        file[place + 18] = record_id;
    }
    file[335 + 15] = 2;
    file
}

/// The payload of the last record is where the first point is.
#[test]
fn a_payload_without_bytes_has_a_line_of_its_own() {
    let file = without_payloads();
    for (text, lines) in [
        (
            "class 2\nrecord yard 7\nrecord crew 1",
            &[(281, 0), (335, 0), (335, 20)][..],
        ),
        ("record yard 7\nclass 2", &[(335, 0), (335, 20)]),
        ("record crew 1\nclass 2", &[(281, 0), (335, 20)]),
        ("record yard 7", &[(335, 0)]),
        ("class 2", &[(335, 20)]),
    ] {
        let sheet = Sheet::from_text(text).unwrap();
        assert_eq!(cutting_list(&file, &sheet), Ok(of(lines)), "{text}");
        let mut list = lent(lines.len() - 1);
        let refused = cutting_list_into(&file, &sheet, &mut list).unwrap_err();
        assert_eq!(refused.number(), 31, "{text}");
    }
}

/// Room is for no more lines than the file has records and points, and for no more than the released file has room for:
/// both are tried as the smaller.
#[test]
fn room_for_a_list_is_enough_and_not_much_more() {
    for (Card { file, sheet, lines }, most) in [(yard(), (557 - 227) / 28), (survey(), 348 / 40)] {
        assert_eq!(most_lines(&file, &sheet), Ok(most));
        assert!(lines.len() <= most);
    }
    let keeps_all = Sheet::from_text("class 2\nrecord yard 7\nrecord crew 1").unwrap();
    let (points_too, one_of_ten) = (with_long_points(2), with_long_points(5));
    for (file, most, lines) in [
        (&points_too, 2 + 10, 12), // and not (2 * 54 + 10 * 300) / 54
        (&one_of_ten, (2 * 54 + 300) / 54, 3),
        (&with_long_payloads(), 2, 2), // and not 2 * (54 + 60000) / 20
    ] {
        assert_eq!(most_lines(file, &keeps_all), Ok(most));
        let as_bytes = keeps_all.as_bytes();
        assert_eq!(bytes::most_lines(file, as_bytes), Ok(most));
        assert_eq!(cutting_list(file, &keeps_all).unwrap().len(), lines);
    }
    let nothing = Sheet::from_text("").unwrap();
    assert_eq!(most_lines(&points_too, &nothing), Ok(0));
}

/// Ten points of 300 bytes behind the two records: the first of class 2, the others of this class.
fn with_long_points(class: u8) -> Vec<u8> {
    let mut file = without_payloads();
    file[105..107].copy_from_slice(&300u16.to_le_bytes());
    file[107] = 10;
    file.resize(335 + 10 * 300, 0);
    for point in 0..10 {
        file[335 + point * 300 + 15] = if point == 0 { 2 } else { class };
    }
    file
}

/// The two records, with payloads of 60000 bytes, and no points.
fn with_long_payloads() -> Vec<u8> {
    let mut file = without_payloads();
    let payload = 60_000u16;
    for place in [281, 227] {
        let length = place + 20;
        file[length..length + 2].copy_from_slice(&payload.to_le_bytes());
        file.splice(place + 54..place + 54, vec![7; payload.into()]);
    }
    file.truncate(335 + 2 * usize::from(payload));
    let offset = file.len() as u32;
    file[96..100].copy_from_slice(&offset.to_le_bytes());
    file[107] = 0;
    file
}

/// Room for the list is made by the length of the released file, in which a record may be shorter than a point.
#[test]
fn records_of_a_file_with_long_points_have_their_lines() {
    let mut file = without_payloads();
    file.truncate(335);
    file[105..107].fill(0xFF);
    for (points, lines) in [(0, 2), (1, 3)] {
        file[107] = points;
        file.resize(335 + usize::from(points) * 65535, 0);
        let sheet = Sheet::from_text("class 0\nrecord yard 7\nrecord crew 1").unwrap();
        let wanted = of(&[(281, 0), (335, 0), (335, 65535)][..lines]);
        assert_eq!(cutting_list(&file, &sheet), Ok(wanted));
    }
}

/// Any answer of the functions for these bytes, with little room or none: a number, and nothing changed.
fn refuses(file: &[u8], sheet: &[u8], number: u64) {
    for length in [0, 3, 20] {
        let (mut list, mut out) = (lent(length), vec![0xEE; length]);
        let refused = bytes::cutting_list_into(file, sheet, &mut list).unwrap_err();
        assert_eq!((refused.number(), refused.needed()), (number, None));
        let refused = bytes::release_by_list(file, sheet, &mut out, &mut list).unwrap_err();
        assert_eq!((refused.number(), refused.needed()), (number, None));
        assert_eq!((list, out), (lent(length), vec![0xEE; length]));
    }
    let refused = bytes::cutting_list(file, sheet).unwrap_err();
    assert_eq!(refused.number(), number);
    let refused = bytes::most_lines(file, sheet).unwrap_err();
    assert_eq!((refused.number(), refused.needed()), (number, None));
}

const BAD_SHEETS: [(&[u8], u64); 7] = [
    (b"KT\x01", 20),
    (b"KS\x04\x02\x02", 21),
    (b"KS\x03\x02\x02", 22),
    (
        b"KS\x03\0\0\0\0\0\0\0\0\0\0\0\0\0\0\0\0\x01\0\0\0\0\0\0\0",
        23,
    ),
    (b"KS\x01\x02", 22),
    (b"KS\x01\x03\x02", 23),
    (&[b'K', b'S', 2, 0, 0, 0], 22),
];

#[test]
fn the_file_comes_before_the_sheet_and_the_sheet_before_the_list() {
    let yard = yard();
    for (sheet, number) in BAD_SHEETS {
        refuses(&yard.file, sheet, number);
        refuses(&yard.file, &[yard.sheet.as_bytes(), sheet].concat(), number);
    }
    let long = b"KS\x01\x02\x02".repeat(65);
    refuses(&yard.file, &long, 24);
    let damages: [(usize, &[u8], u64); 9] = [
        (0, b"l", 2),
        (25, &[4], 3),
        (94, &226u16.to_le_bytes(), 4),
        (104, &[4], 5),
        (105, &27u16.to_le_bytes(), 6),
        (96, &818u32.to_le_bytes(), 7),
        (100, &4u32.to_le_bytes(), 8),
        (107, &13u32.to_le_bytes(), 9),
        (131, &f64::NAN.to_le_bytes(), 10),
    ];
    for (place, damage, number) in damages {
        let mut file = yard.file.clone();
        file[place..place + damage.len()].copy_from_slice(damage);
        for sheet in [yard.sheet.as_bytes(), b"", b"KS", &long] {
            refuses(&file, sheet, number);
        }
    }
    refuses(&yard.file[..226], yard.sheet.as_bytes(), 1);
    refuses(&[], b"KS", 1);
}

/// However many records and points a header states, there is no room made for them before the file has passed.
#[test]
fn a_file_that_states_too_much_is_refused_by_its_number() {
    for (place, number) in [(100, 8), (107, 9)] {
        let mut file = yard().file;
        file[place..place + 4].fill(0xFF);
        refuses(&file, yard().sheet.as_bytes(), number);
        file.truncate(464);
        refuses(&file, yard().sheet.as_bytes(), number);
    }
}

#[test]
fn a_part_that_a_file_does_not_have_is_none() {
    for (place, length, part) in [
        (0, 4, Some(&b"scan"[..])),
        (3, 1, Some(b"n")),
        (4, 0, Some(b"")),
        (0, 5, None),
        (4, 1, None),
        (5, 0, None),
        (1, u64::MAX, None),
        (u64::MAX, 0, None),
        (u64::MAX, u64::MAX, None),
    ] {
        let line = CuttingLine { place, length };
        assert_eq!(line.part_of(b"scan"), part, "{line:?}");
    }
}

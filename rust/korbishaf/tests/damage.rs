//! The sample cards damaged in every byte, cut at every length: the wrappers agree with each other, and none panics.

use korbishaf::{CuttingLine, Line, Point, Record, Sheet, bytes};
use std::collections::BTreeSet;
use std::fs;
use std::path::Path;

/// A card's file and sheet.
fn card(name: &str) -> (Vec<u8>, Vec<u8>) {
    let folder = Path::new(env!("CARGO_MANIFEST_DIR"))
        .join("../../cards")
        .join(name);
    (
        fs::read(folder.join("in.las")).unwrap(),
        fs::read(folder.join("sheet.bin")).unwrap(),
    )
}

/// The number of an answer, 0 for a good one.
fn number<T>(answer: &Result<T, korbishaf::Error>) -> u64 {
    answer.as_ref().err().map_or(0, |refused| refused.number())
}

/// The records of a file that passes, by the library's own steps.
fn steps(file: &[u8]) -> Vec<Record<'_>> {
    let header = korbishaf::read_header(file).unwrap();
    let (mut index, mut position) = (0, u64::from(header.header_size));
    let mut records = Vec::new();
    while let Ok(step) = korbishaf::step(file, index, position) {
        (index, position) = (step.next_index, step.next_position);
        records.push(step.record);
    }
    records
}

/// What holds of any sheet: it is a [`Sheet`] exactly where it passes, and then gives the same answers.
fn try_sheet(file: &[u8], sheet: &[u8]) {
    let made = Sheet::from_bytes(sheet);
    assert_eq!(
        made.as_ref().err(),
        bytes::check_sheet(sheet).as_ref().err()
    );
    let Ok(made) = made else {
        return;
    };
    assert_eq!(made.as_bytes(), sheet);
    for made in [&made, &Sheet::read(made.to_text()).unwrap()] {
        for class in 0..=255 {
            let kept = bytes::class_kept(sheet, class).unwrap();
            assert_eq!(korbishaf::class_kept(made, class), kept);
            let answer = bytes::class_test(sheet, class).unwrap();
            assert_eq!(korbishaf::class_test(made, class), answer);
            assert_eq!(answer.kept, kept);
        }
        let kept = bytes::record_kept(sheet, b"LASF_Projection", 34735).unwrap();
        assert_eq!(
            korbishaf::record_kept(made, b"LASF_Projection", 34735),
            kept
        );
        let released = korbishaf::release_to_vec(file, made);
        assert!(released == bytes::release_to_vec(file, sheet));
        let (mut out, mut plain_out) = (vec![0xEE; file.len()], vec![0xEE; file.len()]);
        assert_eq!(
            korbishaf::release(file, made, &mut out),
            bytes::release(file, sheet, &mut plain_out)
        );
        assert!(out == plain_out);
        assert!(korbishaf::cutting_list(file, made) == bytes::cutting_list(file, sheet));
    }
}

/// What holds of the cutting list of any file and sheet, whose release has this number or, with 0, this length.
fn try_list(file: &[u8], sheet: &[u8], released: (u64, usize)) {
    let list = bytes::cutting_list(file, sheet);
    assert_eq!(number(&list), released.0);
    let lines = list.as_ref().map_or(0, Vec::len);
    let mut again = vec![CuttingLine::default(); lines];
    let (mut out, mut plain_out) = (vec![0xEE; released.1], vec![0xEE; released.1]);
    let answer = bytes::release_by_list(file, sheet, &mut out, &mut again);
    assert_eq!(answer, bytes::release(file, sheet, &mut plain_out));
    assert!(out == plain_out);
    let Ok(list) = list else {
        return;
    };
    assert!(again == list);
    assert_eq!(
        bytes::cutting_list_into(file, sheet, &mut again),
        Ok(list.len())
    );
    assert!(again == list);
    let (mut end, mut length) = (227, 227);
    for line in &list {
        assert!(end <= line.place && line.part_of(file).is_some());
        end = line.place + line.length;
        length += line.length as usize;
    }
    let answer = answer.unwrap();
    assert_eq!(list.len() as u64, answer.points + answer.records);
    assert_eq!(length + 54 * answer.records as usize, released.1);
    if !list.is_empty() {
        let refused = bytes::cutting_list_into(file, sheet, &mut again[1..]);
        assert_eq!(number(&refused), 31);
        assert!(again == list);
    }
}

/// What holds of mending any of these files. They have one fault at most, so that behind 9 there is no other.
fn try_mend(file: &[u8], sheet: &[u8], of_file: u64) {
    let mut mended = file.to_vec();
    let answer = korbishaf::mend(&mut mended);
    assert_eq!(number(&answer), if of_file == 9 { 0 } else { of_file });
    let Ok(answer) = answer else {
        assert!(mended == file);
        return;
    };
    assert_eq!(answer.any(), mended != file);
    assert!(mended[..107] == file[..107] && mended[131..179] == file[131..179]);
    assert!(mended[227..] == file[227..]);
    assert_eq!(korbishaf::check_file(&mended), Ok(()));
    if of_file == 0 {
        let released = bytes::release_to_vec(file, sheet);
        assert!(bytes::release_to_vec(&mended, sheet) == released);
    }
    let again = mended.clone();
    assert_eq!(korbishaf::mend(&mut mended), Ok(Default::default()));
    assert!(mended == again);
}

/// What holds of a lookup by halving in any file that passes, for which the plain lookup has this number. No directory
/// has more than three keys here.
fn try_halving(file: &[u8], key: u16, plain: u64) {
    let halved = korbishaf::geokey_by_halving(file, key);
    match number(&halved.value) {
        found @ (40 | 41) => assert_eq!((plain, halved.reads), (found, 0)),
        42 => assert!(!(40..=41).contains(&plain) && halved.reads <= 2),
        _ => assert!(!(40..=42).contains(&plain) && (1..=2).contains(&halved.reads)),
    }
}

/// Whether a point lies in a box of a sheet that passes, or the sheet has none.
fn in_one_of_the_boxes(sheet: &[u8], point: &Point) -> bool {
    let (mut boxes, mut within) = (0, false);
    for line in Sheet::from_bytes(sheet).unwrap().lines() {
        if let Line::Box { low, high } = line {
            boxes += 1;
            let stored = [point.x, point.y, point.z];
            within |= (0..3).all(|axis| (low[axis]..=high[axis]).contains(&stored[axis]));
        }
    }
    within || boxes == 0
}

/// What holds of any file and any sheet. Returns the numbers of the two checks.
fn try_all(file: &[u8], sheet: &[u8]) -> (u64, u64) {
    let of_file = number(&korbishaf::check_file(file));
    let of_sheet = number(&bytes::check_sheet(sheet));
    assert_eq!(number(&bytes::class_kept(sheet, 2)), of_sheet);
    assert_eq!(number(&bytes::class_test(sheet, 2)), of_sheet);
    assert_eq!(
        number(&bytes::record_kept(sheet, b"LASF_Projection", 34735)),
        of_sheet
    );
    try_sheet(file, sheet);
    try_mend(file, sheet, of_file);

    let released = bytes::release_to_vec(file, sheet);
    assert_eq!(
        number(&released),
        if of_file != 0 { of_file } else { of_sheet }
    );
    if let Ok(out) = &released {
        assert!((227..=file.len()).contains(&out.len()));
        assert!(bytes::release_to_vec(out, sheet).as_ref() == Ok(out));
    }
    let length = released.as_ref().map_or(0, Vec::len);
    try_list(file, sheet, (number(&released), length));

    let header = korbishaf::read_header(file);
    assert_eq!(number(&header), of_file);
    let Ok(header) = header else {
        assert_eq!(number(&korbishaf::records(file)), of_file);
        assert_eq!(number(&korbishaf::step(file, 0, 227)), of_file);
        assert_eq!(number(&korbishaf::points(file)), of_file);
        assert_eq!(number(&korbishaf::point_at(file, 0)), of_file);
        assert_eq!(number(&korbishaf::geokey(file, 1024)), of_file);
        let halved = korbishaf::geokey_by_halving(file, 1024);
        assert_eq!((number(&halved.value), halved.reads), (of_file, 0));
        return (of_file, of_sheet);
    };

    let records = korbishaf::records(file).unwrap();
    assert_eq!(records.len(), header.record_count as usize);
    assert_eq!(records.clone().count(), records.len());
    assert!(records.clone().eq(steps(file)));
    if of_sheet == 0 {
        let kept: Vec<_> = records
            .filter(|record| bytes::record_kept(sheet, record.user_id, record.record_id).unwrap())
            .collect();
        let out = released.as_ref().unwrap();
        assert!(korbishaf::records(out).unwrap().eq(kept));
    }

    let points = korbishaf::points(file).unwrap();
    assert_eq!(points.len(), header.point_count as usize);
    for (index, point) in points.clone().enumerate() {
        assert_eq!(korbishaf::point_at(file, index as u64), Ok(point));
    }
    assert_eq!(number(&korbishaf::point_at(file, points.len() as u64)), 11);
    if of_sheet == 0 {
        let out = released.as_ref().unwrap();
        let length = usize::from(header.record_length);
        let kept: Vec<_> = points
            .filter(|found| !found.point.withheld)
            .filter(|found| bytes::class_kept(sheet, found.point.classification).unwrap())
            .filter(|found| in_one_of_the_boxes(sheet, &found.point))
            .map(|found| &file[found.place..][..length])
            .collect();
        let released_points = korbishaf::points(out).unwrap();
        assert!(
            released_points
                .map(|found| &out[found.place..][..length])
                .eq(kept)
        );
    }

    for key in [0, 1024, 1026, 2048, 2049, 2057, 3072, 3073, 65535] {
        let found = number(&korbishaf::geokey(file, key));
        assert!(found == 0 || (40..=46).contains(&found), "{found}");
        try_halving(file, key, found);
    }
    (of_file, of_sheet)
}

#[test]
fn cards_as_they_are() {
    for name in ["survey", "yard"] {
        let (file, sheet) = card(name);
        assert_eq!(try_all(&file, &sheet), (0, 0));
        assert_eq!(try_all(&file, &with_box(name, &sheet)), (0, 0));
        assert_eq!(try_all(&file, &[]), (0, 0));
        assert_eq!(try_all(&[], &sheet), (1, 0));
    }
}

#[test]
fn damaged_files() {
    for name in ["survey", "yard"] {
        let (file, sheet) = card(name);
        for place in 0..file.len() {
            for byte in [
                0,
                1,
                3,
                b' ',
                0x7F,
                0x80,
                0xFF,
                file[place] ^ 1,
                file[place] ^ 0x10,
            ] {
                let mut file = file.clone();
                file[place] = byte;
                try_all(&file, &sheet);
            }
        }
    }
}

#[test]
fn cut_files() {
    for name in ["survey", "yard"] {
        let (file, sheet) = card(name);
        for length in 0..file.len() {
            try_all(&file[..length], &sheet);
        }
    }
}

/// The sheet of a card with a box behind its lines, in which some of the card's points lie and others do not.
fn with_box(name: &str, sheet: &[u8]) -> Vec<u8> {
    let (low, high) = match name {
        "yard" => ([-1300, i32::MIN, -200], [i32::MAX, 400, 200]),
        _ => ([i32::MIN, i32::MIN, 0], [50, i32::MAX, i32::MAX]),
    };
    let line = Line::bounding_box(low, high);
    [sheet, Sheet::from_lines([line]).unwrap().as_bytes()].concat()
}

#[test]
fn damaged_and_cut_sheets() {
    let mut numbers = BTreeSet::new();
    for name in ["survey", "yard"] {
        let (file, sheet) = card(name);
        let sheet = with_box(name, &sheet);
        for place in 0..sheet.len() {
            numbers.insert(try_all(&file, &sheet[..place]).1);
            for byte in [0, 1, 2, 3, b' ', 0x7F, 0x80, 0xFF, sheet[place] ^ 1] {
                let mut sheet = sheet.clone();
                sheet[place] = byte;
                numbers.insert(try_all(&file, &sheet).1);
            }
        }
    }
    assert_eq!(numbers, BTreeSet::from([0, 20, 21, 22, 23]));
}

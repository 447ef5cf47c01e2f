//! Damaged files and sheets, and bytes of any kind: equal answers, lists and outputs, and every number reached.

use compare::compared::{Compared, Function};
use compare::damage::{
    FORMAT, HEADER_SIZE, MAJOR, MINOR, POINT_COUNT, POINT_OFFSET, RECORD_LENGTH, SCALING,
    VLR_COUNT, damage, damage_sheet,
};
use compare::partly_kept;
use compare::rng::{Rng, seeds};
use compare::spec::{BoxSpec, FileSpec, LineSpec, POINT_SIZES, SheetSpec, random_scale};

use super::table::junk;

const BOTH: [Function; 2] = [Function::CuttingList, Function::ReleaseByList];

/// Calls both functions with a list and an output of any length that may tell; the list has room or not.
fn call_both(compared: &mut Compared, rng: &mut Rng, file: &[u8], sheet: &[u8]) {
    let length = rng.pick(&[0, 1, 2, 5, 20, 20, 60]);
    let room = rng.pick(&[0, 226, 227, 400, file.len(), file.len(), file.len() + 9]);
    let list = junk(rng, length);
    let (listed, _) = compared.cutting_list(file, sheet, &list);
    let out = rng.bytes(room);
    let (released, ..) = compared.release_by_list(file, sheet, &out, &list);
    let same = released.number == listed.number || (released.number, listed.number) == (30, 0);
    assert!(same, "{released:?} and {listed:?}");
    if listed.number != 31 {
        // The list is long enough, or no list is asked for.
        assert_eq!(released, compared.release(file, sheet, &out).0);
    }
}

/// A sheet with a 65th line, with a fault in front, or damaged anywhere.
fn damage_more(rng: &mut Rng, sheet: &mut Vec<u8>) {
    match rng.below(6) {
        0 => sheet.extend(LineSpec::Classes(1, 1).bytes().repeat(64)),
        1 => drop(sheet.splice(0..0, LineSpec::Classes(3, 2).bytes())),
        _ => damage_sheet(rng, sheet),
    }
}

#[test]
fn damaged_files_and_sheets_are_listed_and_released_equally_or_not_at_all() {
    for seed in seeds() {
        let (mut rng, mut compared) = (Rng::new(seed), Compared::new());
        for round in 0..12_000 {
            let (mut file, mut sheet) = if rng.chance(50) {
                let spec = FileSpec::random(&mut rng);
                let sheet = SheetSpec::random_for(&mut rng, &spec);
                (spec.bytes(), sheet.bytes())
            } else {
                let sheet = partly_kept::sheet().bytes();
                (partly_kept::mixed_file(&mut rng).bytes(), sheet)
            };
            if rng.chance(70) {
                damage(&mut rng, &mut file);
            }
            if rng.chance(40) {
                damage_more(&mut rng, &mut sheet);
            }
            compared.case(format!("seed {seed}, file {round}"));
            call_both(&mut compared, &mut rng, &file, &sheet);
        }
        compared.assert_all_reached(&BOTH);
    }
}

/// Random bytes, some of them behind a signature and a version.
fn random_bytes(rng: &mut Rng) -> Vec<u8> {
    let length = rng.pick(&[0, 1, 226, 227, 228, 300, 500]);
    let mut bytes = rng.bytes(length);
    if length >= 227 && rng.chance(70) {
        bytes[..4].copy_from_slice(b"LASF");
        MAJOR.set(&mut bytes, 1);
        MINOR.set(&mut bytes, 2);
    }
    bytes
}

#[test]
fn random_bytes_are_refused_by_both_functions_alike() {
    for seed in seeds() {
        let (mut rng, mut compared) = (Rng::new(seed), Compared::new());
        for round in 0..6000 {
            let file = random_bytes(&mut rng);
            let length = rng.pick(&[0, 2, 5, 40]);
            let sheet = rng.bytes(length);
            compared.case(format!("seed {seed}, bytes {round}"));
            call_both(&mut compared, &mut rng, &file, &sheet);
            let number = compared.check_file(&file);
            assert_ne!(number, 0);
            assert_eq!(compared.cutting_list(&file, &sheet, &[]).0.number, number);
        }
    }
}

/// A header that passes but for its records, in front of random bytes: these are records and points of any kind.
fn header_before_random_bytes(rng: &mut Rng) -> Vec<u8> {
    let (records, format) = (rng.below(4), rng.below(4));
    let record_length = usize::from(POINT_SIZES[format]) + rng.below(4);
    let offset = 227 + 54 * records + rng.below(300);
    let (points, behind) = (rng.below(20), rng.below(50));
    let mut file = rng.bytes(offset + points * record_length + behind);
    file[..4].copy_from_slice(b"LASF");
    // The upper byte of the first payload's length, so that the record may fit.
    if records > 0 {
        file[227 + 21] = 0;
    }
    let fields = [
        (MAJOR, 1),
        (MINOR, 2),
        (HEADER_SIZE, 227),
        (POINT_OFFSET, offset),
        (VLR_COUNT, records),
        (FORMAT, format),
        (RECORD_LENGTH, record_length),
        (POINT_COUNT, points),
    ];
    for (field, value) in fields {
        field.set(&mut file, value as u64);
    }
    for field in SCALING {
        field.set(&mut file, random_scale(rng).to_bits());
    }
    file
}

/// Keeps about half of all classes, often in boxes, and the first record if there is one.
fn sheet_for(rng: &mut Rng, file: &[u8]) -> Vec<u8> {
    let low = rng.below(20) as u8;
    let mut lines = vec![LineSpec::Classes(low, low + 16)];
    for _ in 0..rng.below(3) {
        lines.push(LineSpec::Box(BoxSpec::random(rng)));
    }
    if let Some(first) = file.get(227..247) {
        let user = first[2..18].try_into().expect("a user ID has 16 bytes");
        let record_id = u16::from_le_bytes([first[18], first[19]]);
        lines.push(LineSpec::Record(user, record_id));
    }
    SheetSpec::new(lines).bytes()
}

#[test]
fn random_bytes_behind_a_header_are_listed_and_released_equally_or_not_at_all() {
    for seed in seeds() {
        let (mut rng, mut compared) = (Rng::new(seed), Compared::new());
        // Refused by 8, listed without and with a record.
        let mut reached = [0; 3];
        for round in 0..6000 {
            let file = header_before_random_bytes(&mut rng);
            let sheet = sheet_for(&mut rng, &file);
            compared.case(format!("seed {seed}, file {round}"));
            call_both(&mut compared, &mut rng, &file, &sheet);
            let (answer, _) = compared.release(&file, &sheet, &vec![0xEE; file.len()]);
            assert!(answer.number == 0 || answer.number == 8, "{answer:?}");
            let kind = match (answer.number, answer.records) {
                (8, _) => 0,
                (_, 0) => 1,
                _ => 2,
            };
            reached[kind] += 1;
        }
        assert!(reached.iter().all(|&times| times > 500), "{reached:?}");
        compared.assert_boxes_decided(&BOTH);
    }
}

//! The release: every byte of every output, and every number it gives.

use compare::answers::Released;
use compare::compared::{Compared, Function};
use compare::damage::{damage, spoil};
use compare::rng::{Rng, seeds};
use compare::spec::{
    BoxSpec, FileSpec, LineSpec, RecordSpec, SheetSpec, padded, place_of, projection, put_place,
    random_point,
};

fn kept_records<'a>(spec: &'a FileSpec, sheet: &SheetSpec) -> Vec<&'a RecordSpec> {
    spec.records
        .iter()
        .filter(|record| sheet.keeps_record(record))
        .collect()
}

fn kept_points(spec: &FileSpec, sheet: &SheetSpec) -> Vec<Vec<u8>> {
    spec.points
        .iter()
        .filter(|point| sheet.keeps_point(point))
        .cloned()
        .collect()
}

/// The answer that the description of a file and a sheet makes due.
fn due(spec: &FileSpec, sheet: &SheetSpec) -> Released {
    let (records, points) = (kept_records(spec, sheet), kept_points(spec, sheet));
    let records_size: usize = records.iter().map(|record| record.size()).sum();
    let points_size = points.len() * usize::from(spec.record_length);
    Released {
        number: 0,
        length: (227 + records_size + points_size) as u64,
        points: points.len() as u64,
        records: records.len() as u64,
    }
}

/// Releases into outputs of all telling lengths, with junk in them.
fn release_everywhere(compared: &mut Compared, rng: &mut Rng, spec: &FileSpec, sheet: &SheetSpec) {
    let (file, sheet_bytes) = (spec.bytes(), sheet.bytes());
    let due = due(spec, sheet);
    let needed = due.length as usize;
    for length in [needed, needed + 1, needed + rng.from_to(2, 200)] {
        let junk = rng.bytes(length);
        let (answer, out) = compared.release(&file, &sheet_bytes, &junk);
        assert_eq!(answer, due);
        let offset = needed - due.points as usize * usize::from(spec.record_length);
        assert_eq!(out[offset..needed], kept_points(spec, sheet).concat());
        assert!(out[needed..].iter().all(|&byte| byte == 0));
        assert_eq!(compared.check_file(&out), 0);
    }
    let too_short = refused(30, due.length);
    for length in [needed - 1, rng.below(needed), 227.min(needed - 1), 0] {
        let junk = rng.bytes(length);
        let (answer, out) = compared.release(&file, &sheet_bytes, &junk);
        assert_eq!((answer, out), (too_short, junk));
    }
}

#[test]
fn random_files_and_sheets_release_equal_bytes_into_outputs_of_all_lengths() {
    for seed in seeds() {
        let mut rng = Rng::new(seed);
        let mut compared = Compared::new();
        for round in 0..8000 {
            let spec = FileSpec::random(&mut rng);
            let sheet = SheetSpec::random_for(&mut rng, &spec);
            compared.case(format!("seed {seed}, file {round}"));
            release_everywhere(&mut compared, &mut rng, &spec, &sheet);
        }
        compared.assert_boxes_decided(&[Function::Release]);
    }
}

#[test]
fn damaged_files_and_sheets_release_equally_or_not_at_all() {
    for seed in seeds() {
        let mut rng = Rng::new(seed);
        let mut compared = Compared::new();
        for round in 0..12_000 {
            let spec = FileSpec::random(&mut rng);
            let mut sheet = SheetSpec::random_for(&mut rng, &spec).bytes();
            let mut file = spec.bytes();
            if rng.chance(70) {
                damage(&mut rng, &mut file);
            }
            if rng.chance(40) {
                damage_sheet(&mut rng, &mut sheet);
            }
            let room = rng.pick(&[0, 226, 227, 300, 500, file.len(), file.len() + 9]);
            compared.case(format!("seed {seed}, file {round}"));
            compared.release(&file, &sheet, &rng.bytes(room));
        }
        compared.assert_all_reached(&[Function::Release]);
    }
}

fn damage_sheet(rng: &mut Rng, sheet: &mut Vec<u8>) {
    match rng.below(6) {
        0 => sheet.extend(rng.some_bytes(5)),
        1 => sheet.truncate(rng.below(sheet.len() + 1)),
        2 => sheet.extend(LineSpec::Classes(1, 1).bytes().repeat(64)),
        3 => sheet
            .splice(0..0, LineSpec::Classes(3, 2).bytes())
            .for_each(drop),
        4 => {
            let mut reversed = BoxSpec::random(rng);
            let axis = rng.below(3);
            (reversed.low[axis], reversed.high[axis]) = (0, -1);
            sheet.extend(LineSpec::Box(reversed).bytes());
        }
        _ if sheet.is_empty() => sheet.push(0x4B),
        _ => {
            let place = rng.below(sheet.len());
            sheet[place] ^= 1 << rng.below(8);
        }
    }
}

fn refused(number: u64, length: u64) -> Released {
    Released {
        number,
        length,
        ..Released::default()
    }
}

/// A file of which a box keeps three points of four.
fn file_with_a_point_outside() -> FileSpec {
    let mut outside = vec![2; 28];
    put_place(&mut outside, [0; 3]);
    FileSpec {
        records: vec![projection(7, vec![1; 9])],
        points: vec![vec![2; 28], vec![2; 28], outside, vec![2; 28]],
        ..FileSpec::bare(1)
    }
}

#[test]
fn refusals_come_in_the_order_file_sheet_room() {
    let (file, mut compared) = (file_with_a_point_outside().bytes(), Compared::new());
    let too_many = b"KS\x01\x02\x02".repeat(65);
    let boxed = [b"KS\x01\x02\x02KS\x03".as_slice(), &[2; 24]].concat();
    let reversed = [b"KS\x03".as_slice(), &[2; 20], &[1; 4]].concat();
    let sheets: [(&[u8], u64); 9] = [
        (&boxed, 30),
        (b"KT\x01\x02\x02", 20),
        (b"KS\x00", 21),
        (b"KS\x04", 21),
        (b"KS", 22),
        (&reversed[..26], 22),
        (b"KS\x01\x03\x02", 23),
        (&reversed, 23),
        (&too_many, 24),
    ];
    for (sheet, number) in sheets {
        for number in 1..=10 {
            let mut spoiled = file.clone();
            spoil(&mut spoiled, number);
            let (answer, _) = compared.release(&spoiled, sheet, &[0xEE; 3]);
            assert_eq!(answer, refused(number, 0));
        }
        let (answer, _) = compared.release(&file, sheet, &[0xEE; 226]);
        assert_eq!(answer, refused(number, if number == 30 { 311 } else { 0 }));
    }
    let (answer, _) = compared.release(&file, &boxed, &[0xEE; 311]);
    assert_eq!((answer.number, answer.points), (0, 3));
    compared.assert_all_reached(&[Function::Release]);
}

#[test]
fn every_return_byte_falls_into_its_bin() {
    let mut compared = Compared::new();
    let sheet = SheetSpec::all_classes();
    for byte in 0..=255u8 {
        let mut point = vec![0; 20];
        point[14] = byte;
        let spec = FileSpec {
            points: vec![point; 3],
            ..FileSpec::bare(0)
        };
        let (_, out) = compared.release(&spec.bytes(), &sheet.bytes(), &[0xEE; 287]);
        let bins: Vec<u8> = out[111..131].iter().copied().step_by(4).collect();
        let due: Vec<u8> = (1..=5)
            .map(|bin| if byte & 7 == bin { 3 } else { 0 })
            .collect();
        assert_eq!(bins, due, "return byte {byte:#x}");
    }
}

#[test]
fn bounds_are_the_coordinates_of_the_kept_extremes() {
    for seed in seeds() {
        let mut rng = Rng::new(seed);
        let mut compared = Compared::new();
        for round in 0..3000 {
            let spec = FileSpec::random(&mut rng);
            let mut sheet = SheetSpec::random_for(&mut rng, &spec);
            sheet.lines.truncate(63);
            sheet.lines.push(LineSpec::Classes(0, 4));
            let length = due(&spec, &sheet).length as usize;
            compared.case(format!("seed {seed}, file {round}"));
            let (_, out) = compared.release(&spec.bytes(), &sheet.bytes(), &vec![0xEE; length]);
            let kept = kept_points(&spec, &sheet);
            for axis in 0..3 {
                let stored = kept.iter().map(|point| place_of(point)[axis]);
                let bounds = [stored.clone().max(), stored.min()];
                let due = bounds.map(|stored| stored.map_or(0, |stored| bits(&spec, axis, stored)));
                let written = [179, 187].map(|at| bits_at(&out, at + 16 * axis));
                assert_eq!(written, due, "axis {axis}");
            }
        }
        compared.assert_boxes_decided(&[Function::Release]);
    }
}

fn bits(spec: &FileSpec, axis: usize, stored: i32) -> u64 {
    (f64::from(stored) * spec.scale[axis] + spec.offset[axis]).to_bits()
}

fn bits_at(file: &[u8], at: usize) -> u64 {
    u64::from_le_bytes(file[at..at + 8].try_into().unwrap())
}

#[test]
fn the_largest_payloads_and_records_and_many_points_release_equally() {
    let mut rng = Rng::new(9);
    let mut compared = Compared::new();
    let sheet = SheetSpec::new([
        LineSpec::Classes(0, 4),
        LineSpec::Record(padded(b"user"), 7),
    ]);
    let large = RecordSpec {
        user: padded(b"user"),
        ..projection(7, rng.bytes(65535))
    };
    for (format, record_length, points) in [
        (0, 20, 60_000),
        (1, 28, 60_000),
        (3, 65535, 12),
        (2, 300, 999),
    ] {
        let spec = FileSpec {
            record_length,
            records: vec![large.clone(), projection(7, vec![1; 65535]), large.clone()],
            points: (0..points)
                .map(|_| random_point(&mut rng, record_length))
                .collect(),
            ..FileSpec::bare(format)
        };
        compared.case(format!(
            "format {format}, {points} points of {record_length}"
        ));
        release_everywhere(&mut compared, &mut rng, &spec, &sheet);
    }
}

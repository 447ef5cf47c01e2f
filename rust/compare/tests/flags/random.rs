//! Random files and sheets: no withheld point in a released file, which releases to itself.

use compare::compared::Compared;
use compare::rng::{Rng, seeds};
use compare::rooms::release;
use compare::spec::{
    CLASSIFICATION, FileSpec, KEY_POINT, LineSpec, SYNTHETIC, SheetSpec, class_of, is_withheld,
};

/// A sheet that often keeps all classes, or those from one below 31 to one above.
fn sheet(rng: &mut Rng, spec: &FileSpec) -> SheetSpec {
    let mut sheet = SheetSpec::random_for(rng, spec);
    sheet.lines.truncate(63);
    match rng.below(4) {
        0 => sheet.lines.push(LineSpec::Classes(0, 255)),
        1 => {
            let (low, high) = (rng.below(32) as u8, rng.from_to(32, 255) as u8);
            sheet.lines.insert(0, LineSpec::Classes(low, high));
        }
        _ => {}
    }
    sheet
}

/// A name for what a point is under a sheet, and whether this one is it.
type Kind = (&'static str, fn(&SheetSpec, &[u8]) -> bool);

const KINDS: [Kind; 7] = [
    ("kept, no flags", |sheet, point| kept(sheet, point, 0)),
    ("kept, synthetic", |sheet, point| {
        kept(sheet, point, SYNTHETIC)
    }),
    ("kept, key point", |sheet, point| {
        kept(sheet, point, KEY_POINT)
    }),
    ("kept, both", |sheet, point| {
        kept(sheet, point, SYNTHETIC | KEY_POINT)
    }),
    ("withheld, of a kept class", |sheet, point| {
        is_withheld(point[CLASSIFICATION]) && sheet.keeps_class(class_of(point[CLASSIFICATION]))
    }),
    (
        "not kept, though a line has the whole byte",
        |sheet, point| {
            let byte = point[CLASSIFICATION];
            !sheet.keeps_class(class_of(byte)) && sheet.keeps_class(byte)
        },
    ),
    ("of another class", |sheet, point| {
        !sheet.keeps_class(class_of(point[CLASSIFICATION]))
    }),
];

/// Whether the point is kept and has just these flags.
fn kept(sheet: &SheetSpec, point: &[u8], flags: u8) -> bool {
    let byte = point[CLASSIFICATION];
    byte - class_of(byte) == flags && sheet.keeps_point(point)
}

/// How often a point of each kind stood in a file.
type Counts = [u32; KINDS.len()];

fn count(counts: &mut Counts, spec: &FileSpec, sheet: &SheetSpec) {
    for point in &spec.points {
        for (count, (_, is_it)) in counts.iter_mut().zip(KINDS) {
            *count += u32::from(is_it(sheet, point));
        }
    }
}

/// Every point of the released file is of a class on the sheet, and none is withheld.
fn assert_none_withheld(compared: &mut Compared, file: &[u8], points: u64, sheet: &SheetSpec) {
    for index in 0..points {
        let point = compared.point_at(file, index);
        let byte = file[point.place as usize + CLASSIFICATION];
        assert_eq!((point.number, point.withheld), (0, 0));
        assert!(byte < 128 && byte % 32 == point.classification);
        assert!(sheet.keeps_class(point.classification));
    }
    assert_eq!(compared.point_at(file, points).number, 11);
}

#[test]
fn a_released_file_has_no_withheld_point_and_releases_to_itself() {
    for seed in seeds() {
        let (mut rng, mut compared) = (Rng::new(seed), Compared::new());
        let mut counts = Counts::default();
        for round in 0..4000 {
            let spec = FileSpec::random(&mut rng);
            let sheet = sheet(&mut rng, &spec);
            let sheet_bytes = sheet.bytes();
            compared.case(format!("seed {seed}, file {round}"));
            let answers = release(&mut compared, &mut rng, &spec.bytes(), &sheet_bytes);
            let (numbers, out) = &answers[1];
            let kept = spec.points.iter().filter(|point| sheet.keeps_point(point));
            assert_eq!(numbers.points, kept.count() as u64);
            assert_none_withheld(&mut compared, out, numbers.points, &sheet);
            let again = release(&mut compared, &mut rng, out, &sheet_bytes);
            assert_eq!(again, answers);
            count(&mut counts, &spec, &sheet);
        }
        for (count, (name, _)) in counts.iter().zip(KINDS) {
            assert!(*count > 500, "{name}: {count} points");
        }
    }
}

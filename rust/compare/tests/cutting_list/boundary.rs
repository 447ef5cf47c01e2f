//! Both sides of 31: a list needs a line for each kept record and each kept point, and for nothing else.

use compare::answers::Released;
use compare::compared::Compared;
use compare::partly_kept::{
    DROPPED_BYTES, DROPPED_NAMES, KEPT_BYTES, KEPT_NAMES, point, record, sheet,
};
use compare::rng::{FIXED_SEED, Rng, seeds};
use compare::spec::{CLASSIFICATION, FileSpec, LineSpec, SheetSpec, WITHHELD, padded};

use super::table::{Case, line, listed, not_listed, refused, rooms};

/// A file with so many kept and other records, and so many kept and other points, in any order.
fn file(rng: &mut Rng, records: [usize; 2], points: [usize; 2]) -> FileSpec {
    let mut spec = FileSpec::random(rng);
    spec.records.clear();
    spec.points.clear();
    for (count, names) in records.into_iter().zip([&KEPT_NAMES[..], &DROPPED_NAMES]) {
        for _ in 0..count {
            let place = rng.from_to(0, spec.records.len());
            spec.records.insert(place, record(rng, names));
        }
    }
    for (count, bytes) in points.into_iter().zip([&KEPT_BYTES[..], &DROPPED_BYTES]) {
        for _ in 0..count {
            let place = rng.from_to(0, spec.points.len());
            spec.points
                .insert(place, point(rng, spec.record_length, bytes));
        }
    }
    spec
}

#[test]
fn each_length_of_a_list_is_long_enough_or_too_short_as_it_is_counted_here() {
    for seed in seeds() {
        let (mut rng, mut compared) = (Rng::new(seed), Compared::new());
        for records in 0..4 {
            for points in 0..6 {
                let others = [rng.below(4), rng.below(7)];
                let spec = file(&mut rng, [records, others[0]], [points, others[1]]);
                let case = Case::new(&spec, &sheet());
                assert_eq!(case.lines.len(), records + points);
                compared.case(format!("seed {seed}, {records} records, {points} points"));
                for length in 0..records + points + 5 {
                    case.assert_listed(&mut compared, &mut rng, length);
                    let short = length < records + points;
                    let numbers = rooms(&mut rng, case.needed())
                        .map(|room| case.assert_released(&mut compared, &mut rng, length, room));
                    let due = if short { [31; 4] } else { [0, 0, 0, 30] };
                    assert_eq!(numbers, due, "a list of {length}");
                }
            }
        }
    }
}

#[test]
fn what_is_not_kept_needs_no_line() {
    let (mut rng, mut compared) = (Rng::new(FIXED_SEED), Compared::new());
    for (records, points) in [(0, 1), (1, 0), (1, 1), (2, 3)] {
        let case = Case::new(&file(&mut rng, [records, 50], [points, 80]), &sheet());
        let numbers = [records + points, records + points - 1].map(|length| {
            case.assert_listed(&mut compared, &mut rng, length);
            case.assert_released(&mut compared, &mut rng, length, case.needed())
        });
        assert_eq!(numbers, [0, 31], "{records} records, {points} points");
    }
}

/// Files and sheets of which nothing is kept, with their names.
fn nothing_kept() -> Vec<(&'static str, FileSpec, SheetSpec)> {
    let spec = FileSpec::common(1);
    let mut withheld = spec.clone();
    let points = &mut withheld.points;
    points
        .iter_mut()
        .for_each(|point| point[CLASSIFICATION] |= WITHHELD);
    let none = SheetSpec::default();
    let other_record = SheetSpec::new([LineSpec::Record(padded(b"LASF_Projection"), 8)]);
    let high_classes = SheetSpec::new([LineSpec::Classes(32, 255)]);
    vec![
        ("a bare header, no line", FileSpec::bare(0), none.clone()),
        (
            "a bare header, all classes",
            FileSpec::bare(3),
            SheetSpec::all_classes(),
        ),
        ("no line", spec.clone(), none),
        ("another record ID", spec.clone(), other_record),
        ("classes above 31", spec, high_classes),
        (
            "withheld points, all classes",
            withheld,
            SheetSpec::all_classes(),
        ),
    ]
}

#[test]
fn nothing_kept_is_listed_in_an_empty_list_and_in_any_other() {
    let (mut rng, mut compared) = (Rng::new(FIXED_SEED), Compared::new());
    let released = Released {
        length: 227,
        ..Released::default()
    };
    for (name, spec, sheet) in nothing_kept() {
        let case = Case::new(&spec, &sheet);
        compared.case(name);
        // An empty list is lent by a null pointer too.
        let (answer, _) = compared.cutting_list(&case.file, &case.sheet, &[]);
        assert_eq!(answer, listed(0), "{name}");
        let (answer, ..) = compared.release_by_list(&case.file, &case.sheet, &[0xEE; 227], &[]);
        assert_eq!(answer, released, "{name}");
        let (answer, ..) = compared.release_by_list(&case.file, &case.sheet, &[0xEE; 226], &[]);
        assert_eq!(answer, refused(30, 227), "{name}");
        for length in 0..5 {
            case.assert_listed(&mut compared, &mut rng, length);
            for room in [226, 227, 228, 300] {
                case.assert_released(&mut compared, &mut rng, length, room);
            }
        }
    }
}

#[test]
fn one_kept_record_or_point_does_not_go_into_an_empty_list() {
    let mut compared = Compared::new();
    let spec = FileSpec {
        points: vec![vec![2; 28]],
        ..FileSpec::common(1)
    };
    let record = LineSpec::Record(padded(b"LASF_Projection"), 7);
    let kept = [
        (record, line(281, 7)),
        (LineSpec::Classes(2, 2), line(288, 28)),
    ];
    for (on_sheet, due) in kept {
        let (file, sheet) = (spec.bytes(), SheetSpec::new([on_sheet]).bytes());
        let (answer, _) = compared.cutting_list(&file, &sheet, &[]);
        assert_eq!(answer, not_listed(31));
        let (answer, ..) = compared.release_by_list(&file, &sheet, &[0xEE; 500], &[]);
        assert_eq!(answer, refused(31, 0));
        let (answer, list) = compared.cutting_list(&file, &sheet, &[line(1, 2)]);
        assert_eq!((answer, list), (listed(1), vec![due]));
    }
}

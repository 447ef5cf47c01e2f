//! Boxes beside lines for classes, and without any: a box keeps nothing by itself, and no withheld point at all.

use compare::compared::Compared;
use compare::rng::{FIXED_SEED, Rng, seeds};
use compare::spec::{BoxSpec, FileSpec, LAYOUTS, LineSpec, SheetSpec, Stored, padded};

use super::table::{assert_kept, file, point};

/// Places within a box, on a corner of it and one step beside it, with whether they are inside.
const PLACES: [(Stored, bool); 4] = [
    ([5, -5, 50], true),
    ([9, -9, 99], true),
    ([10, -9, 99], false),
    ([5, -5, 100], false),
];
const BOX: BoxSpec = BoxSpec::new([1, -9, 11], [9, -1, 99]);

/// The classes on a sheet, and the classification bytes of the points that it keeps inside.
type Written = (&'static [(u8, u8)], fn(u8) -> bool);

const SHEETS: [Written; 7] = [
    (&[], |_| false),
    (&[(2, 2)], |byte| [2, 34, 66, 98].contains(&byte)),
    (&[(2, 2), (31, 40)], |byte| {
        [2, 34, 66, 98, 31, 63, 95, 127].contains(&byte)
    }),
    (&[(0, 31)], |byte| byte < 128),
    (&[(0, 255)], |byte| byte < 128),
    (&[(32, 255)], |_| false),
    (&[(130, 130)], |_| false),
];

/// A point of each classification byte at a place.
fn every_byte(rng: &mut Rng, layout: (u8, u16), place: Stored) -> FileSpec {
    let mut spec = file(rng, layout, &[]);
    let length = spec.record_length;
    spec.points = (0..=255)
        .map(|byte| point(rng, length, byte, place))
        .collect();
    spec
}

/// The classes with the box before them, behind them and on both sides.
fn sheets(classes: &[(u8, u8)]) -> [SheetSpec; 3] {
    let lines = classes
        .iter()
        .map(|&(low, high)| LineSpec::Classes(low, high));
    let (classes, boxed): (Vec<_>, _) = (lines.collect(), vec![LineSpec::Box(BOX)]);
    [
        [boxed.clone(), classes.clone()].concat(),
        [classes.clone(), boxed.clone()].concat(),
        [boxed.clone(), classes, boxed].concat(),
    ]
    .map(SheetSpec::new)
}

#[test]
fn of_every_classification_byte_those_of_a_kept_class_are_kept_inside_alone() {
    for seed in seeds() {
        let (mut rng, mut compared) = (Rng::new(seed), Compared::new());
        for layout in LAYOUTS {
            for (place, inside) in PLACES {
                let spec = every_byte(&mut rng, layout, place);
                for (classes, keeps) in SHEETS {
                    let due: Vec<bool> = (0..=255).map(|byte| inside && keeps(byte)).collect();
                    compared.case(format!("seed {seed}, {layout:?}, {place:?}, {classes:?}"));
                    for sheet in sheets(classes) {
                        assert_kept(&mut compared, &mut rng, &spec, &sheet, &due);
                    }
                }
            }
        }
    }
}

#[test]
fn boxes_without_a_line_for_classes_keep_no_point_wherever_it_lies() {
    let (mut rng, mut compared) = (Rng::new(FIXED_SEED), Compared::new());
    let record = LineSpec::Record(padded(b"user"), 7);
    for boxes in [vec![BOX], vec![BoxSpec::WHOLE], vec![BOX, BoxSpec::WHOLE]] {
        let mut lines: Vec<LineSpec> = boxes.into_iter().map(LineSpec::Box).collect();
        for layout in LAYOUTS {
            let spec = every_byte(&mut rng, layout, PLACES[0].0);
            compared.case(format!("{layout:?}, {lines:?}"));
            let alone = SheetSpec::new(lines.clone());
            assert_kept(&mut compared, &mut rng, &spec, &alone, &[false; 256]);
        }
        lines.push(record.clone());
        let spec = every_byte(&mut rng, (1, 0), PLACES[0].0);
        let with_record = SheetSpec::new(lines);
        assert_kept(&mut compared, &mut rng, &spec, &with_record, &[false; 256]);
    }
}

#[test]
fn boxes_change_nothing_about_which_classes_and_records_a_sheet_holds() {
    let mut compared = Compared::new();
    let others = [
        LineSpec::Classes(2, 66),
        LineSpec::Record(padded(b"user"), 7),
    ];
    let alone = SheetSpec::new(others.clone()).bytes();
    let [classes, record] = others;
    let whole = LineSpec::Box(BoxSpec::WHOLE);
    let boxed = SheetSpec::new([whole, classes, LineSpec::Box(BOX), record]).bytes();
    for class in 0..=255 {
        let held = compared.class_kept(&boxed, class);
        assert_eq!(
            (held.number, held.kept),
            (0, u64::from((2..=66).contains(&class)))
        );
        assert_eq!(held, compared.class_kept(&alone, class));
    }
    for (user, record_id) in [(b"user", 7), (b"user", 8), (b"used", 7)] {
        let kept = compared.record_kept(&boxed, user, record_id);
        let due = u64::from((user, record_id) == (b"user", 7));
        assert_eq!((kept.number, kept.kept), (0, due));
        assert_eq!(kept, compared.record_kept(&alone, user, record_id));
    }
}

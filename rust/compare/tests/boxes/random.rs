//! Random files under sheets whose boxes are aimed at their points: no point outside in a released file, which releases
//! to itself.

use compare::compared::{Compared, Function};
use compare::rng::{Rng, seeds};
use compare::rooms::release;
use compare::spec::{
    BoxSpec, ByBoxes, CLASSIFICATION, FileSpec, LineSpec, SheetSpec, class_of, is_withheld,
    place_of,
};

/// A name for what a point is under a sheet that has boxes, and whether this one is it.
type Kind = (&'static str, fn(&SheetSpec, &[u8]) -> bool);

const KINDS: [Kind; 8] = [
    ("kept in a box", |sheet, point| {
        sheet.by_boxes(point) == Some(ByBoxes::Kept)
    }),
    ("kept in several", |sheet, point| {
        sheet.keeps_point(point) && boxes_with(sheet, point).count() > 1
    }),
    ("kept on a face", |sheet, point| {
        sheet.keeps_point(point) && boxes_with(sheet, point).any(|it| on_faces(&it, point) > 0)
    }),
    ("kept on a corner", |sheet, point| {
        sheet.keeps_point(point) && boxes_with(sheet, point).any(|it| on_faces(&it, point) == 3)
    }),
    ("dropped by boxes alone", |sheet, point| {
        sheet.by_boxes(point) == Some(ByBoxes::Dropped)
    }),
    ("dropped one step beside a box", |sheet, point| {
        sheet.by_boxes(point) == Some(ByBoxes::Dropped)
            && boxes(sheet).any(|it| it.steps_off(place_of(point)) == 1)
    }),
    ("withheld in a box", |sheet, point| {
        is_withheld(point[CLASSIFICATION]) && boxes_with(sheet, point).count() > 0
    }),
    ("of another class in a box", |sheet, point| {
        let class = class_of(point[CLASSIFICATION]);
        !sheet.keeps_class(class) && boxes_with(sheet, point).count() > 0
    }),
];

fn boxes(sheet: &SheetSpec) -> impl Iterator<Item = BoxSpec> {
    sheet.lines.iter().filter_map(|line| match line {
        LineSpec::Box(it) => Some(*it),
        _ => None,
    })
}

/// The boxes that hold the point.
fn boxes_with(sheet: &SheetSpec, point: &[u8]) -> impl Iterator<Item = BoxSpec> {
    let place = place_of(point);
    boxes(sheet).filter(move |it| it.holds(place))
}

/// On how many axes the point is at an end of the box.
fn on_faces(it: &BoxSpec, point: &[u8]) -> usize {
    let place = place_of(point);
    let ends = |axis: usize| [it.low[axis], it.high[axis]];
    (0..3)
        .filter(|&axis| ends(axis).contains(&place[axis]))
        .count()
}

/// How often a point of each kind stood in a file.
type Counts = [u32; KINDS.len()];

fn count(counts: &mut Counts, spec: &FileSpec, sheet: &SheetSpec) {
    for point in &spec.points {
        for (count, (_, is_it)) in counts.iter_mut().zip(KINDS) {
            *count += u32::from(is_it(sheet, point));
        }
    }
}

/// Every point of the released file is in a box, of a class on the sheet, and not withheld.
fn assert_all_inside(compared: &mut Compared, file: &[u8], points: u64, sheet: &SheetSpec) {
    for index in 0..points {
        let point = compared.point_at(file, index);
        let place = [point.x, point.y, point.z];
        assert_eq!((point.number, point.withheld), (0, 0));
        assert!(sheet.keeps_class(point.classification));
        assert!(boxes(sheet).any(|it| it.holds(place)), "{place:?}");
    }
    assert_eq!(compared.point_at(file, points).number, 11);
}

#[test]
fn a_released_file_has_no_point_outside_all_boxes_and_releases_to_itself() {
    for seed in seeds() {
        let (mut rng, mut compared) = (Rng::new(seed), Compared::new());
        let mut counts = Counts::default();
        for round in 0..6000 {
            let spec = FileSpec::random(&mut rng);
            let sheet = SheetSpec::random_for(&mut rng, &spec);
            if !sheet.has_boxes() {
                continue;
            }
            compared.case(format!("seed {seed}, file {round}"));
            let answers = release(&mut compared, &mut rng, &spec.bytes(), &sheet.bytes());
            let (numbers, out) = &answers[1];
            let kept = spec.points.iter().filter(|point| sheet.keeps_point(point));
            assert_eq!(numbers.points, kept.count() as u64);
            assert_all_inside(&mut compared, out, numbers.points, &sheet);
            let again = release(&mut compared, &mut rng, out, &sheet.bytes());
            assert!(again == answers);
            count(&mut counts, &spec, &sheet);
        }
        for (count, (name, _)) in counts.iter().zip(KINDS) {
            assert!(*count > 200, "{name}: {count} points");
        }
        compared.assert_boxes_decided(&[
            Function::Release,
            Function::CuttingList,
            Function::ReleaseByList,
        ]);
    }
}

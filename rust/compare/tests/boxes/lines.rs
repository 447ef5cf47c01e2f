//! The same lines in another order, or one of them twice: the release and the list are the same.

use compare::answers::Line;
use compare::compared::{Compared, Function};
use compare::rng::{Rng, seeds};
use compare::rooms::release;
use compare::spec::{FileSpec, LineSpec, MOST_LINES, SheetSpec};

fn shuffled(rng: &mut Rng, lines: &[LineSpec]) -> Vec<LineSpec> {
    let mut lines = lines.to_vec();
    for last in (1..lines.len()).rev() {
        lines.swap(last, rng.from_to(0, last));
    }
    lines
}

/// The lines with one of them anywhere else a second time, where there is room for it.
fn doubled(rng: &mut Rng, lines: &[LineSpec]) -> Vec<LineSpec> {
    let mut sheet = SheetSpec::new(lines);
    if !lines.is_empty() && lines.len() < MOST_LINES {
        let line = rng.pick(lines);
        sheet.insert_anywhere(rng, line);
    }
    sheet.lines
}

/// Boxes first and boxes last.
fn sorted(lines: &[LineSpec], first: bool) -> Vec<LineSpec> {
    let mut lines = lines.to_vec();
    lines.sort_by_key(|line| matches!(line, LineSpec::Box(_)) != first);
    lines
}

fn assert_same(compared: &mut Compared, rng: &mut Rng, spec: &FileSpec, lines: &[LineSpec]) {
    let file = spec.bytes();
    let enough = vec![Line::default(); spec.records.len() + spec.points.len()];
    let sheet = SheetSpec::new(lines).bytes();
    let first = release(compared, rng, &file, &sheet);
    let list = compared.cutting_list(&file, &sheet, &enough);
    for other in [
        shuffled(rng, lines),
        doubled(rng, lines),
        sorted(lines, true),
        sorted(lines, false),
        lines.iter().rev().cloned().collect(),
    ] {
        let sheet = SheetSpec::new(other).bytes();
        assert!(release(compared, rng, &file, &sheet) == first);
        assert_eq!(compared.cutting_list(&file, &sheet, &enough), list);
    }
}

#[test]
fn lines_in_another_order_or_twice_release_the_same() {
    for seed in seeds() {
        let (mut rng, mut compared) = (Rng::new(seed), Compared::new());
        let mut boxed = 0;
        for round in 0..1500 {
            let spec = FileSpec::random(&mut rng);
            let sheet = SheetSpec::random_for(&mut rng, &spec);
            compared.case(format!("seed {seed}, file {round}"));
            assert_same(&mut compared, &mut rng, &spec, &sheet.lines);
            boxed += u32::from(sheet.has_boxes() && sheet.lines.len() > 1);
        }
        assert!(boxed > 500, "{boxed}");
        compared.assert_boxes_decided(&[Function::Release, Function::CuttingList]);
    }
}

//! Files that differ only in points outside all boxes: their releases are the same, in every byte and number.

use compare::boxed::{file, is_outside, private, sheet};
use compare::compared::{Compared, Function};
use compare::rng::{Rng, seeds};
use compare::rooms::release;
use compare::spec::{BoxSpec, FileSpec, LineSpec, SheetSpec};

/// The sheet, and others that keep less: under all of them the points outside are dropped.
fn sheets() -> [SheetSpec; 4] {
    let sheet = sheet();
    let fewer = |keep: fn(&LineSpec) -> bool| {
        let lines = sheet.lines.iter().filter(|line| keep(line));
        SheetSpec::new(lines.cloned().collect::<Vec<_>>())
    };
    [
        fewer(|line| !matches!(line, LineSpec::Record(..))),
        fewer(|line| !matches!(line, LineSpec::Classes(..))),
        SheetSpec::default(),
        sheet,
    ]
}

fn assert_same(compared: &mut Compared, rng: &mut Rng, [one, other]: [&FileSpec; 2]) {
    let [one, other] = [one.bytes(), other.bytes()];
    for sheet in sheets() {
        let first = release(compared, rng, &one, &sheet.bytes());
        let second = release(compared, rng, &other, &sheet.bytes());
        assert!(first == second, "{sheet:?}");
    }
}

#[test]
fn private_things_changed_in_one_way_leave_no_trace() {
    for seed in seeds() {
        let (mut rng, mut compared) = (Rng::new(seed), Compared::new());
        for (name, change) in private() {
            let mut differing = 0;
            for round in 0..80 {
                let spec = file(&mut rng);
                let mut other = spec.clone();
                change(&mut rng, &mut other);
                differing += u32::from(spec.bytes() != other.bytes());
                compared.case(format!("seed {seed}, {name}, pair {round}"));
                assert_same(&mut compared, &mut rng, [&spec, &other]);
            }
            assert!(differing > 20, "{name}: only {differing} pairs differ");
        }
        compared.assert_boxes_decided(&[Function::Release]);
    }
}

#[test]
fn private_things_changed_in_every_way_leave_no_trace() {
    for seed in seeds() {
        let (mut rng, mut compared) = (Rng::new(seed), Compared::new());
        for round in 0..600 {
            let spec = file(&mut rng);
            let mut other = spec.clone();
            for (_, change) in private() {
                change(&mut rng, &mut other);
            }
            assert!(other.points.iter().any(|point| is_outside(point)));
            assert_ne!(spec.points, other.points);
            compared.case(format!("seed {seed}, pair {round}"));
            assert_same(&mut compared, &mut rng, [&spec, &other]);
        }
        compared.assert_boxes_decided(&[Function::Release]);
    }
}

#[test]
fn a_file_with_all_points_outside_releases_as_one_without_points() {
    for seed in seeds() {
        let (mut rng, mut compared) = (Rng::new(seed), Compared::new());
        for round in 0..300 {
            let mut spec = file(&mut rng);
            spec.points.retain(|point| is_outside(point));
            let none = FileSpec {
                points: Vec::new(),
                ..spec.clone()
            };
            compared.case(format!("seed {seed}, file {round}"));
            assert_same(&mut compared, &mut rng, [&spec, &none]);
            let [(numbers, out), ..] =
                release(&mut compared, &mut rng, &spec.bytes(), &sheet().bytes());
            assert_eq!((numbers.points, &out[179..227]), (0, &[0; 48][..]));
        }
    }
}

#[test]
fn a_whole_box_beside_the_others_keeps_what_no_box_at_all_keeps() {
    for seed in seeds() {
        let (mut rng, mut compared) = (Rng::new(seed), Compared::new());
        let mut with_whole = sheet();
        with_whole.lines.push(LineSpec::Box(BoxSpec::WHOLE));
        let mut without = sheet();
        without
            .lines
            .retain(|line| !matches!(line, LineSpec::Box(_)));
        let [with_whole, without] = [with_whole, without].map(|sheet| sheet.bytes());
        for round in 0..500 {
            let spec = file(&mut rng).bytes();
            compared.case(format!("seed {seed}, file {round}"));
            let first = release(&mut compared, &mut rng, &spec, &with_whole);
            assert!(first == release(&mut compared, &mut rng, &spec, &without));
            let [boxed, ..] = release(&mut compared, &mut rng, &spec, &sheet().bytes());
            assert!(boxed.0.points < first[0].0.points);
        }
    }
}

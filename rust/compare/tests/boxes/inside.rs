//! Files that differ in a point of a kept class in a box: the release shows it.

use compare::boxed::{file, inside, outside, sheet};
use compare::compared::Compared;
use compare::rng::{Rng, seeds};
use compare::rooms::{Answer, release};
use compare::spec::{ByBoxes, CLASSIFICATION, FileSpec, place_of, put_place};

/// The files that are tried for each seed.
const FILES: usize = 60;

/// Calls for each file and each of its points about which the boxes decide so; gives how many there were.
fn for_each_point(
    decision: ByBoxes,
    mut call: impl FnMut(&mut Compared, &mut Rng, &FileSpec, usize),
) -> usize {
    let (mut calls, sheet) = (0, sheet());
    for seed in seeds() {
        let (mut rng, mut compared) = (Rng::new(seed), Compared::new());
        for round in 0..FILES {
            let spec = file(&mut rng);
            compared.case(format!("seed {seed}, file {round}"));
            for (index, point) in spec.points.iter().enumerate() {
                if sheet.by_boxes(point) == Some(decision) {
                    call(&mut compared, &mut rng, &spec, index);
                    calls += 1;
                }
            }
        }
    }
    calls
}

fn releases(compared: &mut Compared, rng: &mut Rng, spec: &FileSpec) -> [Answer; 3] {
    release(compared, rng, &spec.bytes(), &sheet().bytes())
}

fn changed(spec: &FileSpec, change: impl FnOnce(&mut Vec<Vec<u8>>)) -> FileSpec {
    let mut spec = spec.clone();
    change(&mut spec.points);
    spec
}

#[test]
fn each_byte_of_a_point_inside_shows() {
    let calls = for_each_point(ByBoxes::Kept, |compared, rng, spec, index| {
        let [first, ..] = releases(compared, rng, spec);
        let places = 12..usize::from(spec.record_length);
        for place in places.filter(|&place| place != CLASSIFICATION) {
            let other = changed(spec, |points| points[index][place] ^= 0x10);
            let [second, ..] = releases(compared, rng, &other);
            assert_eq!(second.0, first.0, "byte {place} of point {index}");
            assert!(second.1 != first.1, "byte {place} of point {index}");
        }
    });
    assert!(calls > 2 * FILES, "{calls}");
}

#[test]
fn a_point_moved_within_the_boxes_shows_and_changes_no_number() {
    let calls = for_each_point(ByBoxes::Kept, |compared, rng, spec, index| {
        let mut place = inside(rng);
        while place == place_of(&spec.points[index]) {
            place = inside(rng);
        }
        let moved = changed(spec, |points| put_place(&mut points[index], place));
        let [first, ..] = releases(compared, rng, spec);
        let [second, ..] = releases(compared, rng, &moved);
        assert_eq!(second.0, first.0);
        assert!(second.1 != first.1, "point {index}");
    });
    assert!(calls > 2 * FILES, "{calls}");
}

#[test]
fn a_point_moved_out_of_all_boxes_goes_as_if_it_were_not_there() {
    let calls = for_each_point(ByBoxes::Kept, |compared, rng, spec, index| {
        let place = outside(rng);
        let moved = changed(spec, |points| put_place(&mut points[index], place));
        let without = changed(spec, |points| drop(points.remove(index)));
        let [first, ..] = releases(compared, rng, spec);
        let second = releases(compared, rng, &moved);
        assert_eq!(second[0].0.points + 1, first.0.points);
        assert!(second == releases(compared, rng, &without), "point {index}");
    });
    assert!(calls > 2 * FILES, "{calls}");
}

#[test]
fn a_point_moved_into_a_box_comes_as_if_it_had_not_been_there() {
    let calls = for_each_point(ByBoxes::Dropped, |compared, rng, spec, index| {
        let place = inside(rng);
        let moved = changed(spec, |points| put_place(&mut points[index], place));
        let without = changed(spec, |points| drop(points.remove(index)));
        let first = releases(compared, rng, spec);
        assert!(first == releases(compared, rng, &without), "point {index}");
        let [_, second, _] = releases(compared, rng, &moved);
        assert_eq!(second.0.points, first[0].0.points + 1);
        assert!(goes_out(&second, &moved, index), "point {index}");
    });
    assert!(calls > 2 * FILES, "{calls}");
}

/// Whether a kept point stands in the released file behind all that are kept before it.
fn goes_out((numbers, out): &Answer, spec: &FileSpec, index: usize) -> bool {
    let (sheet, length) = (sheet(), usize::from(spec.record_length));
    let before = spec.points[..index].iter();
    let before = before.filter(|point| sheet.keeps_point(point)).count();
    let points = &out[out.len() - length * numbers.points as usize..];
    points[length * before..].starts_with(&spec.points[index])
}

#[test]
fn a_point_inside_that_is_removed_or_doubled_changes_the_number_of_points() {
    let calls = for_each_point(ByBoxes::Kept, |compared, rng, spec, index| {
        let [first, ..] = releases(compared, rng, spec);
        let removed = changed(spec, |points| drop(points.remove(index)));
        let doubled = changed(spec, |points| points.insert(index, points[index].clone()));
        let points = [&removed, &doubled].map(|spec| {
            let [second, ..] = releases(compared, rng, spec);
            second.0.points
        });
        assert_eq!(points, [first.0.points - 1, first.0.points + 1]);
    });
    assert!(calls > 2 * FILES, "{calls}");
}

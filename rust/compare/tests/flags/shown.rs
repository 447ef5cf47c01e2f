//! Files that differ in one flag of a point whose class is kept: the release shows it.

use compare::compared::Compared;
use compare::rng::{Rng, seeds};
use compare::rooms::{Answer, release};
use compare::spec::{
    CLASSIFICATION, FileSpec, KEY_POINT, LineSpec, SYNTHETIC, SheetSpec, WITHHELD, random_point_of,
};

/// Classification bytes of points that are kept, of withheld points of the same classes, and of points of others.
const KEPT: [u8; 8] = [2, 34, 66, 98, 31, 63, 95, 127];
const WITHHELD_BYTES: [u8; 8] = [130, 162, 194, 226, 159, 191, 223, 255];
const OTHERS: [u8; 6] = [0, 1, 36, 70, 30, 129];

fn sheet() -> Vec<u8> {
    SheetSpec::new([LineSpec::Classes(2, 2), LineSpec::Classes(31, 66)]).bytes()
}

/// A file with points of all kinds, in any order.
fn file(rng: &mut Rng) -> FileSpec {
    let mut spec = FileSpec::random(rng);
    spec.points.clear();
    for byte in [KEPT.as_slice(), &WITHHELD_BYTES, &OTHERS].concat() {
        let place = rng.from_to(0, spec.points.len());
        spec.points
            .insert(place, random_point_of(rng, spec.record_length, byte));
    }
    spec
}

/// The file with bits of one point's classification byte turned.
fn turned(spec: &FileSpec, index: usize, bits: u8) -> FileSpec {
    let mut spec = spec.clone();
    spec.points[index][CLASSIFICATION] ^= bits;
    spec
}

fn without(spec: &FileSpec, index: usize) -> FileSpec {
    let mut spec = spec.clone();
    spec.points.remove(index);
    spec
}

/// Calls for each file and each of its points that has one of these bytes; gives how many there were.
fn for_each_point(
    bytes: &[u8],
    mut call: impl FnMut(&mut Compared, &mut Rng, &FileSpec, usize),
) -> usize {
    let mut calls = 0;
    for seed in seeds() {
        let (mut rng, mut compared) = (Rng::new(seed), Compared::new());
        for round in 0..40 {
            let spec = file(&mut rng);
            compared.case(format!("seed {seed}, file {round}"));
            for (index, point) in spec.points.iter().enumerate() {
                if bytes.contains(&point[CLASSIFICATION]) {
                    call(&mut compared, &mut rng, &spec, index);
                    calls += 1;
                }
            }
        }
    }
    calls
}

fn releases(compared: &mut Compared, rng: &mut Rng, spec: &FileSpec) -> [Answer; 3] {
    release(compared, rng, &spec.bytes(), &sheet())
}

/// The place of a kept point's classification byte in the released file.
fn place_in(released: &Answer, spec: &FileSpec, index: usize) -> usize {
    let length = usize::from(spec.record_length);
    let points = released.0.points as usize * length;
    let is_kept = |point: &&Vec<u8>| KEPT.contains(&point[CLASSIFICATION]);
    let before = spec.points[..index].iter().filter(is_kept).count();
    released.0.length as usize - points + before * length + CLASSIFICATION
}

#[test]
fn one_flag_of_a_kept_point_changes_one_byte_of_the_release_and_no_number() {
    let calls = for_each_point(&KEPT, |compared, rng, spec, index| {
        let [first, ..] = releases(compared, rng, spec);
        assert_eq!(first.0.points, KEPT.len() as u64);
        for flag in [SYNTHETIC, KEY_POINT, SYNTHETIC | KEY_POINT] {
            let [second, ..] = releases(compared, rng, &turned(spec, index, flag));
            let place = place_in(&first, spec, index);
            let mut due = first.clone();
            due.1[place] ^= flag;
            assert_eq!(second, due, "point {index}, flag {flag:#x}");
        }
    });
    assert_eq!(calls, 2 * 40 * KEPT.len());
}

#[test]
fn a_kept_point_that_is_withheld_goes_as_if_it_were_not_there() {
    let calls = for_each_point(&KEPT, |compared, rng, spec, index| {
        let [first, ..] = releases(compared, rng, spec);
        let second = releases(compared, rng, &turned(spec, index, WITHHELD));
        assert_eq!(second[0].0.points + 1, first.0.points);
        assert_eq!(second, releases(compared, rng, &without(spec, index)));
    });
    assert_eq!(calls, 2 * 40 * KEPT.len());
}

#[test]
fn a_withheld_point_of_a_kept_class_comes_where_its_flag_goes() {
    let calls = for_each_point(&WITHHELD_BYTES, |compared, rng, spec, index| {
        let first = releases(compared, rng, spec);
        assert_eq!(first, releases(compared, rng, &without(spec, index)));
        let shown = turned(spec, index, WITHHELD);
        let [second, ..] = releases(compared, rng, &shown);
        assert_eq!(second.0.points, first[0].0.points + 1);
        let start = place_in(&second, &shown, index) - CLASSIFICATION;
        assert!(second.1[start..].starts_with(&shown.points[index]));
    });
    assert_eq!(calls, 2 * 40 * WITHHELD_BYTES.len());
}

#[test]
fn no_flag_of_a_point_of_another_class_shows() {
    let calls = for_each_point(&OTHERS, |compared, rng, spec, index| {
        let first = releases(compared, rng, spec);
        for flag in [SYNTHETIC, KEY_POINT, WITHHELD, 0xE0] {
            assert_eq!(releases(compared, rng, &turned(spec, index, flag)), first);
        }
    });
    assert_eq!(calls, 2 * 40 * OTHERS.len());
}

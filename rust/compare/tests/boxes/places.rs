//! Every place around a box: on each face, edge and corner, within, and one step beside each of these.

use compare::compared::Compared;
use compare::rng::{FIXED_SEED, Rng, seeds};
use compare::spec::{BoxSpec, LAYOUTS, Stored};

use super::table::{assert_kept, file, sheet};

const LOWEST: i32 = i32::MIN;
const HIGHEST: i32 = i32::MAX;

/// Boxes of differing sizes: of one place, across 0, across where a byte or the sign carries over, and at the ends.
const BOXES: [BoxSpec; 10] = [
    BoxSpec::new([-10, 20, -5], [-7, 25, 5]),
    BoxSpec::of_one([0; 3]),
    BoxSpec::of_one([-1, 0, 1]),
    BoxSpec::new([-1; 3], [0; 3]),
    BoxSpec::new([255, 65_535, 0xFF_FFFF], [256, 65_536, 0x100_0000]),
    BoxSpec::new([-256, -65_536, -0x100_0000], [-255, -65_535, -0xFF_FFFF]),
    BoxSpec::new([LOWEST + 1; 3], [HIGHEST - 1; 3]),
    BoxSpec::new([LOWEST, -3, HIGHEST - 2], [HIGHEST, 9, HIGHEST]),
    BoxSpec::new([HIGHEST - 1, LOWEST, 7], [HIGHEST, LOWEST + 1, 7]),
    BoxSpec::new([1_000_000; 3], [2_000_000_000; 3]),
];

/// Just below a range, its low end, within, its high end, just above; with whether that is inside. Nothing is below the
/// lowest value or above the highest.
fn steps(low: i32, high: i32) -> Vec<(i32, bool)> {
    let within = low.midpoint(high);
    let mut steps = vec![(low, true), (within, true), (high, true)];
    steps.extend(low.checked_sub(1).map(|below| (below, false)));
    steps.extend(high.checked_add(1).map(|above| (above, false)));
    steps
}

/// All steps of each axis with all steps of the others; inside is what is inside on all three.
fn around(it: &BoxSpec) -> Vec<(Stored, bool)> {
    let [xs, ys, zs] = [0, 1, 2].map(|axis| steps(it.low[axis], it.high[axis]));
    let mut places = Vec::new();
    for &(x, in_x) in &xs {
        for &(y, in_y) in &ys {
            places.extend(
                zs.iter()
                    .map(|&(z, in_z)| ([x, y, z], in_x && in_y && in_z)),
            );
        }
    }
    places
}

#[test]
fn the_places_are_those_that_are_written_here() {
    let places = around(&BOXES[0]);
    assert_eq!(places.len(), 125);
    assert_eq!(places.iter().filter(|(_, inside)| *inside).count(), 27);
    for wanted in [
        ([-10, 20, -5], true),
        ([-7, 25, 5], true),
        ([-8, 22, 0], true),
        ([-10, 25, 0], true),
        ([-11, 22, 0], false),
        ([-6, 22, 0], false),
        ([-8, 19, 0], false),
        ([-8, 26, 5], false),
        ([-7, 25, 6], false),
        ([-11, 19, -6], false),
    ] {
        assert!(places.contains(&wanted), "{wanted:?}");
    }
    // Four steps at an end of the range, and three in a whole one.
    assert_eq!(around(&BOXES[7]).len(), 3 * 5 * 4);
}

#[test]
fn of_all_places_around_a_box_those_inside_and_on_its_faces_are_kept() {
    for seed in seeds() {
        let (mut rng, mut compared) = (Rng::new(seed), Compared::new());
        for it in BOXES {
            let (places, due): (Vec<_>, Vec<_>) = around(&it).into_iter().unzip();
            for layout in LAYOUTS {
                compared.case(format!("seed {seed}, {layout:?}, {it:?}"));
                let spec = file(&mut rng, layout, &places);
                assert_kept(&mut compared, &mut rng, &spec, &sheet(&[it]), &due);
            }
        }
    }
}

#[test]
fn each_place_by_itself_is_kept_or_not_as_it_is_among_others() {
    let (mut rng, mut compared) = (Rng::new(FIXED_SEED), Compared::new());
    let mut reached = [0; 2];
    for (index, it) in BOXES.iter().enumerate() {
        for (place, inside) in around(it) {
            let layout = LAYOUTS[index % LAYOUTS.len()];
            compared.case(format!("{layout:?}, {it:?}, {place:?}"));
            let spec = file(&mut rng, layout, &[place]);
            assert_kept(&mut compared, &mut rng, &spec, &sheet(&[*it]), &[inside]);
            reached[usize::from(inside)] += 1;
        }
    }
    // 27 inside each of ten boxes; outside 98 of eight, and 33 and 53 of those at the ends of the range.
    assert_eq!(reached, [870, 270]);
}

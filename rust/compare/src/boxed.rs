//! Files of which the boxes of one sheet hold some points and some not, and changes of those outside.

use crate::partly_kept::{self, Change, KEPT_BYTES, PRIVATE, mixed_file};
use crate::rng::Rng;
use crate::spec::{
    BoxSpec, CLASSIFICATION, FileSpec, KEY_POINT, LineSpec, SYNTHETIC, SheetSpec, Stored, TELLING,
    WITHHELD, place_of, put_place, random_point, value_from_to,
};

/// Two boxes that overlap, and one at the ends of the range.
pub const BOXES: [BoxSpec; 3] = [
    BoxSpec::new([-100, 0, -50], [100, 200, 50]),
    BoxSpec::new([50, 150, 0], [300, 400, 90]),
    BoxSpec::new(
        [i32::MAX - 9, i32::MIN, i32::MIN],
        [i32::MAX, i32::MIN + 9, i32::MAX],
    ),
];

/// Keeps what the sheet of [`partly_kept`] keeps, but of the points only those in a box.
pub fn sheet() -> SheetSpec {
    let mut sheet = partly_kept::sheet();
    for (line, it) in [0, 2, 4].into_iter().zip(BOXES) {
        sheet.lines.insert(line, LineSpec::Box(it));
    }
    sheet
}

/// Whether the point is in no box.
pub fn is_outside(point: &[u8]) -> bool {
    let place = place_of(point);
    !BOXES.iter().any(|it| it.holds(place))
}

/// A place in one of the boxes, often on a face, an edge or a corner.
pub fn inside(rng: &mut Rng) -> Stored {
    let it = rng.pick(&BOXES);
    place_in(rng, &it)
}

fn place_in(rng: &mut Rng, it: &BoxSpec) -> Stored {
    std::array::from_fn(|axis| match (rng.below(4), it.low[axis], it.high[axis]) {
        (0, low, _) => low,
        (1, _, high) => high,
        (_, low, high) => value_from_to(rng, low, high),
    })
}

/// A place in no box, often one step beside one.
pub fn outside(rng: &mut Rng) -> Stored {
    loop {
        let place = match rng.below(4) {
            0 => [(); 3].map(|()| rng.next() as i32),
            1 => [(); 3].map(|()| rng.pick(&TELLING)),
            _ => one_beside(rng),
        };
        if !BOXES.iter().any(|it| it.holds(place)) {
            return place;
        }
    }
}

/// A place one step off a face of a box; it may be in another.
fn one_beside(rng: &mut Rng) -> Stored {
    let (it, axis) = (rng.pick(&BOXES), rng.below(3));
    let mut place = place_in(rng, &it);
    place[axis] = if rng.chance(50) {
        it.low[axis].wrapping_sub(1)
    } else {
        it.high[axis].wrapping_add(1)
    };
    place
}

/// A file with points of any kind inside and outside; of those whose class is kept, one at least is on either side.
pub fn file(rng: &mut Rng) -> FileSpec {
    let mut spec = mixed_file(rng);
    for point in &mut spec.points {
        let place = if rng.chance(50) {
            inside(rng)
        } else {
            outside(rng)
        };
        put_place(point, place);
    }
    for place in [inside(rng), outside(rng)] {
        insert(rng, &mut spec, place);
    }
    spec
}

/// Puts a point whose class is kept anywhere among the others.
fn insert(rng: &mut Rng, spec: &mut FileSpec, place: Stored) {
    let mut point = partly_kept::point(rng, spec.record_length, &KEPT_BYTES);
    put_place(&mut point, place);
    let at = rng.from_to(0, spec.points.len());
    spec.points.insert(at, point);
}

/// Changes of points outside, of which a file has one at least.
pub const OUTSIDE: [(&str, Change); 11] = [
    ("none of them", |_, spec| {
        spec.points.retain(|point| !is_outside(point))
    }),
    ("more of them", |rng, spec| {
        for _ in 0..rng.from_to(2, 6) {
            let place = outside(rng);
            insert(rng, spec, place);
        }
    }),
    ("fewer of them", |_, spec| {
        let last = spec.points.iter().rposition(|point| is_outside(point));
        spec.points.remove(last.expect("one is outside"));
    }),
    ("other bytes", |rng, spec| {
        let length = spec.record_length;
        each(spec, |point| {
            let place = place_of(point);
            *point = random_point(rng, length);
            put_place(point, place);
        });
    }),
    ("other places outside", |rng, spec| {
        each(spec, |point| put_place(point, outside(rng)));
    }),
    ("the highest values", |_, spec| {
        each(spec, |point| put_place(point, [i32::MAX; 3]));
    }),
    ("the lowest values", |_, spec| {
        each(spec, |point| put_place(point, [i32::MIN; 3]));
    }),
    ("another return number", |rng, spec| {
        each(spec, |point| point[14] ^= rng.from_to(1, 7) as u8);
    }),
    ("another class", |rng, spec| {
        each(spec, |point| {
            point[CLASSIFICATION] ^= rng.from_to(1, 31) as u8
        });
    }),
    ("other flags", |rng, spec| {
        let flags = [SYNTHETIC, KEY_POINT, WITHHELD, WITHHELD | KEY_POINT];
        each(spec, |point| point[CLASSIFICATION] ^= rng.pick(&flags));
    }),
    ("another order", |rng, spec| {
        let (moved, others) = spec.points.drain(..).partition(|point| is_outside(point));
        spec.points = others;
        for point in Vec::into_iter(moved) {
            let at = rng.from_to(0, spec.points.len());
            spec.points.insert(at, point);
        }
    }),
];

/// Changes each point outside.
fn each(spec: &mut FileSpec, change: impl FnMut(&mut Vec<u8>)) {
    let outside = spec.points.iter_mut().filter(|point| is_outside(point));
    outside.for_each(change);
}

/// Changes of things outside the public part: of all that is private anyway, then of points outside all boxes.
pub fn private() -> impl Iterator<Item = (&'static str, Change)> {
    PRIVATE.into_iter().chain(OUTSIDE)
}

#[cfg(test)]
mod tests {
    use super::*;
    use crate::rng::FIXED_SEED;
    use crate::spec::ByBoxes;

    #[test]
    fn places_inside_are_in_a_box_and_places_outside_in_none() {
        let mut rng = Rng::new(FIXED_SEED);
        let mut in_both = 0;
        for _ in 0..2000 {
            let (place, other) = (inside(&mut rng), outside(&mut rng));
            assert!(BOXES.iter().any(|it| it.holds(place)), "{place:?}");
            assert!(!BOXES.iter().any(|it| it.holds(other)), "{other:?}");
            in_both += u32::from(BOXES[0].holds(place) && BOXES[1].holds(place));
        }
        assert!(in_both > 20, "{in_both}");
    }

    #[test]
    fn a_file_has_kept_points_inside_and_points_that_boxes_alone_drop() {
        let mut rng = Rng::new(FIXED_SEED);
        for _ in 0..200 {
            let spec = file(&mut rng);
            for decision in [ByBoxes::Kept, ByBoxes::Dropped] {
                let is_it = |point: &Vec<u8>| sheet().by_boxes(point) == Some(decision);
                assert!(spec.points.iter().any(is_it), "{decision:?}");
            }
        }
    }

    #[test]
    fn no_change_of_points_outside_moves_a_point_inside_or_brings_one_in() {
        let mut rng = Rng::new(FIXED_SEED);
        for (name, change) in OUTSIDE {
            for _ in 0..100 {
                let spec = file(&mut rng);
                let mut other = spec.clone();
                change(&mut rng, &mut other);
                let [one, other] = [spec, other].map(|spec| {
                    let inside = spec.points.into_iter().filter(|point| !is_outside(point));
                    inside.collect::<Vec<_>>()
                });
                assert_eq!(one, other, "{name}");
            }
        }
    }
}

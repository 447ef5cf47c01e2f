//! Sheets with boxes that together hold half of the points of a file, which lie anywhere at random.

use compare::rng::Rng;
use compare::spec::{BoxSpec, LineSpec, SheetSpec};

use crate::sample::SHEET;

/// Into how many parts the range of X, Y and Z is cut for many boxes.
const PARTS: [usize; 3] = [5, 4, 3];

/// The share of a part that a box takes on each axis; on all three together it is one half.
const SHARE: f64 = 0.793_700_525_984_099_8;

/// A sheet for the kept class, by the number of its boxes.
pub struct Boxed {
    pub name: &'static str,
    pub sheet: Vec<u8>,
}

impl Boxed {
    /// No box, one and sixty.
    pub fn all() -> [Self; 3] {
        let boxed = |name, boxes| Self {
            name,
            sheet: sheet(boxes),
        };
        [
            boxed("none", Vec::new()),
            boxed("1", grid([1; 3])),
            boxed("60", grid(PARTS)),
        ]
    }
}

fn sheet(boxes: Vec<BoxSpec>) -> Vec<u8> {
    let lines: Vec<LineSpec> = boxes.into_iter().map(LineSpec::Box).collect();
    [SHEET.to_vec(), SheetSpec::new(lines).bytes()].concat()
}

/// A box in the middle of each part, so that none has a place in common with another; in any order.
fn grid(parts: [usize; 3]) -> Vec<BoxSpec> {
    let mut boxes = Vec::new();
    for x in 0..parts[0] {
        for y in 0..parts[1] {
            boxes.extend((0..parts[2]).map(|z| in_part([x, y, z], parts)));
        }
    }
    let mut rng = Rng::new(1);
    for last in (1..boxes.len()).rev() {
        boxes.swap(last, rng.from_to(0, last));
    }
    boxes
}

fn in_part(part: [usize; 3], parts: [usize; 3]) -> BoxSpec {
    let ranges: [_; 3] = std::array::from_fn(|axis| middle_of(part[axis], parts[axis]));
    BoxSpec::new(ranges.map(|(low, _)| low), ranges.map(|(_, high)| high))
}

/// The share in the middle of one of so many parts of the range.
fn middle_of(part: usize, parts: usize) -> (i32, i32) {
    let width = 2f64.powi(32) / parts as f64;
    let low = part as f64 * width + (1.0 - SHARE) / 2.0 * width - 2f64.powi(31);
    (low as i32, (low + SHARE * width) as i32)
}

#[cfg(test)]
mod tests {
    use super::*;
    use crate::cases::COMMON;
    use crate::sample::{HEADER, Sample};
    use compare::spec::place_of;

    const POINTS: usize = 20_000;

    fn file() -> Vec<u8> {
        let points = POINTS;
        Sample { points, ..COMMON }.file()
    }

    #[test]
    fn boxes_keep_half_of_what_is_kept_without_them() {
        let file = file();
        let mut out = vec![0; file.len()];
        let [none, one, sixty] = Boxed::all().map(|boxed| {
            let released = las_plain::release(&file, &boxed.sheet, &mut out);
            released.expect("the file is released").points as usize
        });
        assert!((9_700..10_300).contains(&none), "{none}");
        for kept in [one, sixty] {
            assert!((4_700..5_300).contains(&kept), "{kept} of {none}");
        }
    }

    #[test]
    fn half_of_the_points_lie_in_one_box_each_and_every_box_has_some() {
        let (file, boxes) = (file(), grid(PARTS));
        assert_eq!(boxes.len(), 60);
        let mut counts = vec![0; boxes.len()];
        for point in file[HEADER..].chunks_exact(COMMON.record_length()) {
            let place = place_of(point);
            let holding: Vec<usize> = (0..60).filter(|&at| boxes[at].holds(place)).collect();
            assert!(holding.len() <= 1, "{place:?}");
            holding.iter().for_each(|&at| counts[at] += 1);
        }
        assert!((9_700..10_300).contains(&counts.iter().sum::<usize>()));
        assert!(
            counts.iter().all(|count| (100..250).contains(count)),
            "{counts:?}"
        );
    }
}

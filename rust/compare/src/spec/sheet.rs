//! Keep sheets.

use super::boxes::{BoxSpec, place_of};
use super::classification::{CLASSIFICATION, class_of, is_withheld};
use super::record::{RECORD_IDS, RecordSpec};
use super::text::{USER_IDS, cut, with_tail};
use crate::rng::Rng;

/// The most lines that a sheet may have.
pub const MOST_LINES: usize = 64;

/// One line of a keep sheet.
#[derive(Debug, Clone, PartialEq, Eq)]
pub enum LineSpec {
    /// Kind 1: lowest and highest class.
    Classes(u8, u8),
    /// Kind 2: user ID and record ID.
    Record([u8; 16], u16),
    /// Kind 3: low and high X, Y, Z.
    Box(BoxSpec),
}

/// What the boxes of a sheet decide about a point that is kept where there are none.
#[derive(Debug, Clone, Copy, PartialEq, Eq, PartialOrd, Ord)]
pub enum ByBoxes {
    Kept,
    Dropped,
}

/// A keep sheet.
#[derive(Debug, Clone, Default, PartialEq, Eq)]
pub struct SheetSpec {
    pub lines: Vec<LineSpec>,
}

impl LineSpec {
    /// A line of any kind that passes; boxes are less frequent, since one is enough to drop points.
    pub fn random(rng: &mut Rng) -> Self {
        match rng.below(20) {
            0..2 => Self::Box(BoxSpec::random(rng)),
            2..12 => {
                let name = rng.pick(&USER_IDS);
                Self::Record(with_tail(rng, name), rng.pick(&RECORD_IDS))
            }
            _ => Self::random_classes(rng),
        }
    }

    fn random_classes(rng: &mut Rng) -> Self {
        let low = if rng.chance(70) {
            rng.below(10) as u8
        } else {
            rng.byte()
        };
        let high = low.saturating_add(rng.pick(&[0, 0, 1, 2, 5, 30, 255]));
        Self::Classes(low, high)
    }

    /// The line at the front of a sheet that passes, and what is behind it.
    fn read(bytes: &[u8]) -> (Self, &[u8]) {
        let (kind, body) = (bytes[2], &bytes[3..]);
        match kind {
            1 => (Self::Classes(body[0], body[1]), &body[2..]),
            2 => {
                let user = body.first_chunk().expect("a line is whole");
                let record_id = u16::from_le_bytes([body[16], body[17]]);
                (Self::Record(*user, record_id), &body[18..])
            }
            _ => (Self::Box(BoxSpec::read(body)), &body[24..]),
        }
    }

    /// Whether the line is for classes and this is one of them.
    pub fn holds_class(&self, class: u8) -> bool {
        matches!(self, Self::Classes(low, high) if (low..=high).contains(&&class))
    }

    pub fn bytes(&self) -> Vec<u8> {
        match self {
            Self::Classes(low, high) => vec![0x4B, 0x53, 1, *low, *high],
            Self::Record(user, record_id) => {
                [&[0x4B, 0x53, 2], user.as_slice(), &record_id.to_le_bytes()].concat()
            }
            Self::Box(it) => [vec![0x4B, 0x53, 3], it.bytes()].concat(),
        }
    }
}

impl SheetSpec {
    pub fn new(lines: impl Into<Vec<LineSpec>>) -> Self {
        Self {
            lines: lines.into(),
        }
    }

    /// A sheet that keeps every point that is not withheld.
    pub fn all_classes() -> Self {
        Self::new([LineSpec::Classes(0, 255)])
    }

    /// A sheet that passes; a few are empty or have all 64 lines.
    pub fn random(rng: &mut Rng) -> Self {
        let lines = match rng.below(20) {
            0 => 0,
            1 => MOST_LINES,
            _ => rng.from_to(1, 8),
        };
        Self {
            lines: (0..lines).map(|_| LineSpec::random(rng)).collect(),
        }
    }

    /// The lines of a sheet that passes, read off its bytes.
    pub fn of_passing(mut bytes: &[u8]) -> Self {
        let mut lines = Vec::new();
        while !bytes.is_empty() {
            let line;
            (line, bytes) = LineSpec::read(bytes);
            lines.push(line);
        }
        Self { lines }
    }

    pub fn bytes(&self) -> Vec<u8> {
        self.lines.iter().flat_map(LineSpec::bytes).collect()
    }

    pub fn has_boxes(&self) -> bool {
        let mut lines = self.lines.iter();
        lines.any(|line| matches!(line, LineSpec::Box(_)))
    }

    pub fn keeps_class(&self, class: u8) -> bool {
        self.lines.iter().any(|line| line.holds_class(class))
    }

    /// Whether the point is not withheld, of a class that the sheet keeps and, where the sheet has boxes, in one.
    pub fn keeps_point(&self, point: &[u8]) -> bool {
        self.keeps_by_class(point) && self.by_boxes(point) != Some(ByBoxes::Dropped)
    }

    /// What the boxes of the sheet decide about the point; nothing where there are none, or it is not kept anyway.
    pub fn by_boxes(&self, point: &[u8]) -> Option<ByBoxes> {
        if !self.has_boxes() || !self.keeps_by_class(point) {
            return None;
        }
        let place = place_of(point);
        let mut lines = self.lines.iter();
        let inside = lines.any(|line| matches!(line, LineSpec::Box(it) if it.holds(place)));
        Some(if inside {
            ByBoxes::Kept
        } else {
            ByBoxes::Dropped
        })
    }

    /// Whether the point is not withheld, and of a class that the sheet keeps.
    fn keeps_by_class(&self, point: &[u8]) -> bool {
        let byte = point[CLASSIFICATION];
        !is_withheld(byte) && self.keeps_class(class_of(byte))
    }

    pub fn keeps_record(&self, record: &RecordSpec) -> bool {
        self.lines.iter().any(|line| {
            matches!(line, LineSpec::Record(user, record_id)
                if cut(user) == record.cut_user() && *record_id == record.record_id)
        })
    }
}

#[cfg(test)]
mod tests {
    use super::*;
    use crate::rng::FIXED_SEED;
    use crate::spec::put_place;

    #[test]
    fn a_sheet_read_off_its_bytes_has_its_lines() {
        let mut rng = Rng::new(FIXED_SEED);
        for _ in 0..1000 {
            let sheet = SheetSpec::random(&mut rng);
            assert_eq!(SheetSpec::of_passing(&sheet.bytes()), sheet);
        }
    }

    /// A point at a place of which all three values are the same.
    fn point(value: i32, classification: u8) -> [u8; 20] {
        let mut point = [0; 20];
        put_place(&mut point, [value; 3]);
        point[CLASSIFICATION] = classification;
        point
    }

    #[test]
    fn boxes_decide_about_points_that_are_kept_but_for_them() {
        let [classes, boxed] = [
            LineSpec::Classes(2, 2),
            LineSpec::Box(BoxSpec::of_one([7; 3])),
        ];
        let (inside, outside) = (point(7, 2), point(8, 2));
        let sheet = SheetSpec::new([classes.clone(), boxed.clone()]);
        assert_eq!(sheet.by_boxes(&inside), Some(ByBoxes::Kept));
        assert_eq!(sheet.by_boxes(&outside), Some(ByBoxes::Dropped));
        assert!(sheet.keeps_point(&inside) && !sheet.keeps_point(&outside));
        for point in [point(7, 3), point(8, 3), point(7, 0x82), point(8, 0x82)] {
            assert_eq!(sheet.by_boxes(&point), None);
            assert!(!sheet.keeps_point(&point));
        }
        let alone = SheetSpec::new([classes]);
        assert_eq!(alone.by_boxes(&inside), None);
        assert!(alone.keeps_point(&inside) && alone.keeps_point(&outside));
        assert!(!SheetSpec::new([boxed]).keeps_point(&inside));
    }
}

//! The keep sheet: which points, by class and by box, and which records may leave.
//!
//! A class is one number without flags here. Ranges may reach up to 255, though points have classes up to 31 only.
//! Boxes keep no class: where a sheet has any, a point has to lie in one of them besides having a kept class.

use crate::bounding_box::BoundingBox;
use crate::bytes::{cut, u16_at};
use crate::refusal::Refusal;

/// The two bytes that every line begins with.
const MARK: [u8; 2] = *b"KS";
/// The most lines a sheet may have.
const MOST_LINES: usize = 64;

/// A keep sheet that passes the checks 20 to 24.
#[derive(Debug, Clone)]
pub struct Sheet<'a> {
    classes: [bool; 256],
    records: Vec<(&'a [u8], u16)>,
    boxes: Vec<BoundingBox>,
}

impl<'a> Sheet<'a> {
    /// Reads the sheet line by line; the first fault is given.
    pub fn read(bytes: &'a [u8]) -> Result<Self, Refusal> {
        let mut sheet = Self {
            classes: [false; 256],
            records: Vec::new(),
            boxes: Vec::new(),
        };
        for line in Lines::new(bytes) {
            match line? {
                Line::Classes { lowest, highest } => {
                    sheet.classes[usize::from(lowest)..=usize::from(highest)].fill(true);
                }
                Line::Record { user_id, record_id } => sheet.records.push((user_id, record_id)),
                Line::Box(bounding_box) => sheet.boxes.push(bounding_box),
            }
        }
        Ok(sheet)
    }

    /// Whether points of this class are kept, unless they are withheld or [`keeps_position`](Self::keeps_position)
    /// says no.
    #[inline]
    pub fn keeps_class(&self, class: u8) -> bool {
        self.classes[usize::from(class)]
    }

    /// Whether the sheet has boxes, so that it matters where a point lies.
    pub fn has_boxes(&self) -> bool {
        !self.boxes.is_empty()
    }

    /// Whether a point with these stored values X, Y, Z lies in a box, faces included; always where there are no boxes.
    #[inline]
    pub fn keeps_position(&self, stored: [i32; 3]) -> bool {
        let mut boxes = self.boxes.iter();
        self.boxes.is_empty() || boxes.any(|bounding_box| bounding_box.contains(stored))
    }

    /// Whether records with this user ID (cut here) and record ID are kept.
    pub fn keeps_record(&self, user_id: &[u8], record_id: u16) -> bool {
        self.records.contains(&(cut(user_id), record_id))
    }
}

/// Whether the sheet passes the checks 20 to 24.
pub fn check_sheet(sheet: &[u8]) -> Result<(), Refusal> {
    Sheet::read(sheet).map(drop)
}

/// Whether a sheet keeps a class, which may be any number from 0 to 255 and has no flags in it; boxes do not matter.
pub fn class_kept(sheet: &[u8], class: u8) -> Result<bool, Refusal> {
    Sheet::read(sheet).map(|sheet| sheet.keeps_class(class))
}

/// Whether a sheet keeps records with this user ID and record ID.
pub fn record_kept(sheet: &[u8], user_id: &[u8], record_id: u16) -> Result<bool, Refusal> {
    Sheet::read(sheet).map(|sheet| sheet.keeps_record(user_id, record_id))
}

/// What one line says.
#[derive(Debug, Clone, Copy, PartialEq, Eq)]
pub enum Line<'a> {
    /// Kind 1: points of these classes are kept, unless they are withheld or outside all boxes of the sheet.
    Classes { lowest: u8, highest: u8 },
    /// Kind 2: records with this cut user ID and record ID are kept.
    Record { user_id: &'a [u8], record_id: u16 },
    /// Kind 3: where a sheet has boxes, only points in one of them are kept.
    Box(BoundingBox),
}

impl<'a> Line<'a> {
    /// Reads the line at the front and hands back the bytes after it.
    fn read(bytes: &'a [u8]) -> Result<(Self, &'a [u8]), Refusal> {
        let (&[first, second, kind], rest) = bytes.split_first_chunk().ok_or(Refusal::LineCut)?;
        if [first, second] != MARK {
            return Err(Refusal::WrongMark);
        }
        match kind {
            1 => Self::read_classes(rest),
            2 => Self::read_record(rest),
            3 => Self::read_box(rest),
            _ => Err(Refusal::UnknownKind),
        }
    }

    fn read_classes(body: &'a [u8]) -> Result<(Self, &'a [u8]), Refusal> {
        let (&[lowest, highest], rest) = body.split_first_chunk().ok_or(Refusal::LineCut)?;
        if lowest > highest {
            return Err(Refusal::ReversedRange);
        }
        Ok((Self::Classes { lowest, highest }, rest))
    }

    fn read_record(body: &'a [u8]) -> Result<(Self, &'a [u8]), Refusal> {
        let (body, rest) = body.split_at_checked(18).ok_or(Refusal::LineCut)?;
        let line = Self::Record {
            user_id: cut(&body[..16]),
            record_id: u16_at(body, 16),
        };
        Ok((line, rest))
    }

    fn read_box(body: &'a [u8]) -> Result<(Self, &'a [u8]), Refusal> {
        let (body, rest) = body.split_first_chunk().ok_or(Refusal::LineCut)?;
        let bounding_box = BoundingBox::read(body);
        if bounding_box.is_reversed() {
            return Err(Refusal::ReversedRange);
        }
        Ok((Self::Box(bounding_box), rest))
    }

    /// Whether the line holds a class, its lowest and highest included; lines for records and boxes hold none.
    pub fn holds_class(&self, class: u8) -> bool {
        match *self {
            Self::Classes { lowest, highest } => lowest <= class && class <= highest,
            Self::Record { .. } | Self::Box(_) => false,
        }
    }
}

/// The lines of a sheet in order; nothing follows a fault.
pub struct Lines<'a> {
    rest: &'a [u8],
    read: usize,
}

impl<'a> Lines<'a> {
    pub fn new(rest: &'a [u8]) -> Self {
        Self { rest, read: 0 }
    }

    fn next_line(&mut self) -> Result<Line<'a>, Refusal> {
        if self.read == MOST_LINES {
            return Err(Refusal::TooManyLines);
        }
        let (line, rest) = Line::read(self.rest)?;
        self.rest = rest;
        self.read += 1;
        Ok(line)
    }
}

impl<'a> Iterator for Lines<'a> {
    type Item = Result<Line<'a>, Refusal>;

    fn next(&mut self) -> Option<Self::Item> {
        if self.rest.is_empty() {
            return None;
        }
        let line = self.next_line();
        if line.is_err() {
            self.rest = &[];
        }
        Some(line)
    }
}

#[cfg(test)]
mod tests {
    use std::slice::from_ref;

    use super::*;
    use crate::sample::{P3_SHEET, SAMPLE_BOX, box_line};

    /// A line for the sample box.
    fn sample_box() -> Vec<u8> {
        box_line(SAMPLE_BOX.low, SAMPLE_BOX.high)
    }

    /// Whether the boxes of these lines let a point at `stored` be kept.
    fn keeps_position(lines: &[Vec<u8>], stored: [i32; 3]) -> bool {
        let bytes = lines.concat();
        Sheet::read(&bytes).unwrap().keeps_position(stored)
    }

    #[test]
    fn p3_keeps_class_2_alone() {
        let sheet = Sheet::read(&[0x4B, 0x53, 1, 2, 2]).unwrap();
        let kept: Vec<u8> = (0..=255)
            .filter(|&class| sheet.keeps_class(class))
            .collect();
        assert_eq!(kept, [2]);
    }

    #[test]
    fn a_class_asked_for_is_one_number_without_flags() {
        let sheet = [0x4B, 0x53, 1, 20, 200];
        for class in 0..=255 {
            let held = (20..=200).contains(&class);
            assert_eq!(class_kept(&sheet, class), Ok(held), "{class}");
        }
    }

    #[test]
    fn p4_a_reversed_range_gives_23() {
        assert_eq!(
            check_sheet(&[0x4B, 0x53, 1, 3, 2]),
            Err(Refusal::ReversedRange)
        );
    }

    #[test]
    fn p5_a_cut_line_gives_22() {
        assert_eq!(check_sheet(&[0x4B, 0x53]), Err(Refusal::LineCut));
    }

    #[test]
    fn p6_a_wrong_mark_gives_20() {
        assert_eq!(check_sheet(&[0x4B, 0x54, 1]), Err(Refusal::WrongMark));
    }

    #[test]
    fn faults_of_a_line_come_in_the_order_of_the_specification() {
        assert_eq!(check_sheet(&[0x4B, 0x54]), Err(Refusal::LineCut));
        assert_eq!(check_sheet(&[0x4B, 0x54, 3]), Err(Refusal::WrongMark));
        assert_eq!(check_sheet(&[0x4B, 0x53, 4]), Err(Refusal::UnknownKind));
        assert_eq!(check_sheet(&[0x4B, 0x53, 1, 9]), Err(Refusal::LineCut));
        assert_eq!(check_sheet(&[]), Ok(()));
    }

    #[test]
    fn kinds_0_and_4_and_up_give_21_with_or_without_a_body() {
        for kind in (0..=255).filter(|kind| !(1..=3).contains(kind)) {
            for length in [0, 2, 18, 24, 100] {
                let line = [b"KS".as_slice(), &[kind], &vec![0; length]].concat();
                assert_eq!(check_sheet(&line), Err(Refusal::UnknownKind), "{kind}");
            }
        }
    }

    #[test]
    fn a_65th_line_gives_24_even_if_it_is_one_stray_byte() {
        for line in [[0x4B, 0x53, 1, 0, 255].as_slice(), &sample_box()] {
            let mut sheet = line.repeat(64);
            assert_eq!(check_sheet(&sheet), Ok(()));
            sheet.push(0);
            assert_eq!(check_sheet(&sheet), Err(Refusal::TooManyLines));
        }
    }

    #[test]
    fn a_box_is_cut_short_below_27_bytes_and_another_line_begins_behind_them() {
        let line = sample_box();
        assert_eq!(line.len(), 27);
        for length in 1..27 {
            assert_eq!(
                check_sheet(&line[..length]),
                Err(Refusal::LineCut),
                "{length}"
            );
        }
        assert_eq!(check_sheet(&line), Ok(()));
        for (behind, answer) in [
            (b"K".as_slice(), Err(Refusal::LineCut)),
            (b"KS", Err(Refusal::LineCut)),
            (b"KT\x03", Err(Refusal::WrongMark)),
            (b"KS\x03", Err(Refusal::LineCut)),
            (b"KS\x04", Err(Refusal::UnknownKind)),
            (&P3_SHEET, Ok(())),
        ] {
            let sheet = [line.as_slice(), behind].concat();
            assert_eq!(check_sheet(&sheet), answer, "{behind:?}");
        }
    }

    #[test]
    fn low_above_high_gives_23_on_each_axis_alone() {
        for (low, high, answer) in [
            (6, 5, Err(Refusal::ReversedRange)),
            (5, 5, Ok(())),
            (0, -1, Err(Refusal::ReversedRange)),
            (-1, 0, Ok(())),
            (i32::MAX, i32::MIN, Err(Refusal::ReversedRange)),
            (i32::MIN, i32::MAX, Ok(())),
        ] {
            for axis in 0..3 {
                let (mut lows, mut highs) = ([0; 3], [0; 3]);
                (lows[axis], highs[axis]) = (low, high);
                let line = box_line(lows, highs);
                assert_eq!(check_sheet(&line), answer, "{low} to {high} on axis {axis}");
            }
        }
    }

    #[test]
    fn a_reversed_box_that_is_cut_short_gives_22() {
        let line = box_line([1; 3], [0; 3]);
        for length in 3..27 {
            assert_eq!(
                check_sheet(&line[..length]),
                Err(Refusal::LineCut),
                "{length}"
            );
        }
        assert_eq!(check_sheet(&line), Err(Refusal::ReversedRange));
    }

    #[test]
    fn the_first_line_with_a_fault_counts() {
        let reversed = box_line([0, 0, 1], [0; 3]);
        let (before, behind) = (
            [&reversed, b"KT\x01".as_slice()],
            [b"KT\x01", &reversed[..]],
        );
        assert_eq!(check_sheet(&before.concat()), Err(Refusal::ReversedRange));
        assert_eq!(check_sheet(&behind.concat()), Err(Refusal::WrongMark));
    }

    #[test]
    fn without_boxes_a_point_may_lie_anywhere() {
        for position in [[0; 3], [i32::MIN; 3], [i32::MAX; 3]] {
            assert!(keeps_position(&[], position));
            assert!(keeps_position(&[P3_SHEET.to_vec()], position));
        }
    }

    #[test]
    fn with_boxes_a_point_has_to_lie_in_one_of_them() {
        let left = box_line([0, 0, 0], [4, 4, 4]);
        let right = box_line([3, 3, 3], [9, 9, 9]);
        for (stored, in_left, in_right) in [
            ([0, 0, 0], true, false),
            ([3, 3, 3], true, true),
            ([4, 4, 4], true, true),
            ([9, 9, 9], false, true),
            // Each axis lies in one of the boxes, but not all three in the same.
            ([0, 9, 4], false, false),
            ([9, 0, 3], false, false),
            ([10, 9, 9], false, false),
            ([-1, 0, 0], false, false),
        ] {
            assert_eq!(keeps_position(from_ref(&left), stored), in_left);
            assert_eq!(keeps_position(from_ref(&right), stored), in_right);
            let either = in_left || in_right;
            assert_eq!(
                keeps_position(&[left.clone(), right.clone()], stored),
                either
            );
            assert_eq!(
                keeps_position(&[right.clone(), left.clone()], stored),
                either
            );
        }
    }

    #[test]
    fn the_last_of_64_boxes_counts() {
        let mut lines = vec![sample_box(); 63];
        lines.push(box_line([i32::MAX; 3], [i32::MAX; 3]));
        assert!(keeps_position(&lines, [-7, 20, 5]));
        assert!(keeps_position(&lines, [i32::MAX; 3]));
        assert!(!keeps_position(&lines, [0; 3]));
    }

    #[test]
    fn boxes_change_nothing_for_classes_and_records() {
        let record = [b"KS\x02user".as_slice(), &[0; 12], &[7, 0]].concat();
        let sheet = [sample_box(), P3_SHEET.to_vec(), sample_box(), record].concat();
        for class in 0..=255 {
            assert_eq!(class_kept(&sheet, class), Ok(class == 2), "{class}");
            assert_eq!(class_kept(&sample_box(), class), Ok(false), "{class}");
        }
        assert_eq!(record_kept(&sheet, b"user", 7), Ok(true));
        assert_eq!(record_kept(&sample_box(), b"user", 7), Ok(false));
    }

    #[test]
    fn user_ids_are_compared_cut() {
        let sheet = [b"KS\x02user\0junkjunkjun".as_slice(), &[7, 0]].concat();
        assert_eq!(record_kept(&sheet, b"user", 7), Ok(true));
        assert_eq!(record_kept(&sheet, b"user\0other", 7), Ok(true));
        assert_eq!(record_kept(&sheet, b"user", 8), Ok(false));
        assert_eq!(record_kept(&sheet, b"users", 7), Ok(false));
    }

    #[test]
    fn spaces_at_the_end_of_a_user_id_do_not_count_on_either_side() {
        let zeros = [b"KS\x02user".as_slice(), &[0; 12], &[7, 0]].concat();
        let spaces = [b"KS\x02user".as_slice(), &[b' '; 12], &[7, 0]].concat();
        let long = [b"user".as_slice(), &[b' '; 300]].concat();
        for sheet in [&zeros, &spaces] {
            for user_id in [b"user".as_slice(), b"user ", b"user \0 x", &long] {
                assert_eq!(record_kept(sheet, user_id, 7), Ok(true), "{user_id:?}");
            }
            for user_id in [b" user".as_slice(), b"us er", b"user\t", b"user x", b" "] {
                assert_eq!(record_kept(sheet, user_id, 7), Ok(false), "{user_id:?}");
            }
        }
    }

    #[test]
    fn a_user_id_of_spaces_is_the_empty_one() {
        let spaces = [b"KS\x02".as_slice(), &[b' '; 16], &[7, 0]].concat();
        let zeros = [b"KS\x02".as_slice(), &[0; 16], &[7, 0]].concat();
        for sheet in [&spaces, &zeros] {
            for user_id in [b"".as_slice(), b" ", &[b' '; 16], b"\0user"] {
                assert_eq!(record_kept(sheet, user_id, 7), Ok(true), "{user_id:?}");
            }
        }
    }
}

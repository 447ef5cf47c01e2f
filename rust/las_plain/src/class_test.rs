//! The class test: the first line of a sheet that holds a class.

use crate::refusal::Refusal;
use crate::sheet::Lines;

/// What the class test says of a sheet that passes.
#[derive(Debug, Clone, Copy, PartialEq, Eq)]
pub struct ClassLine {
    /// Whether a line holds the class.
    pub kept: bool,
    /// The number of lines looked at, of any kind: up to and with the first that holds the class, or all of them.
    pub lines: u64,
}

/// Looks for a class, any number from 0 to 255 without flags, line by line up to the first that holds it.
///
/// The whole sheet is checked first, so a fault (20 to 24) behind that line is given too.
pub fn class_test(sheet: &[u8], class: u8) -> Result<ClassLine, Refusal> {
    let lines = Lines::new(sheet).collect::<Result<Vec<_>, _>>()?;
    let first = lines.iter().position(|line| line.holds_class(class));
    Ok(ClassLine {
        kept: first.is_some(),
        lines: first.map_or(lines.len(), |before| before + 1) as u64,
    })
}

#[cfg(test)]
mod tests {
    use super::*;
    use crate::sample::box_line;
    use crate::sheet::class_kept;

    /// A line for records; every byte behind the mark is 2, also those where a line for classes has its range.
    const RECORD: [u8; 21] = {
        let mut line = [2; 21];
        line[0] = b'K';
        line[1] = b'S';
        line
    };

    /// A line for classes.
    fn classes(lowest: u8, highest: u8) -> [u8; 5] {
        [b'K', b'S', 1, lowest, highest]
    }

    /// The answer if line number `lines`, counted from 1, is the first that holds the class.
    fn held_by(lines: u64) -> Result<ClassLine, Refusal> {
        Ok(ClassLine { kept: true, lines })
    }

    /// The answer if none of all the sheet's `lines` holds the class.
    fn held_by_none_of(lines: u64) -> Result<ClassLine, Refusal> {
        Ok(ClassLine { kept: false, lines })
    }

    #[test]
    fn the_line_that_answers_may_be_the_first_the_last_or_between() {
        let sheet = [classes(7, 7), classes(2, 2), classes(9, 9)].concat();
        assert_eq!(class_test(&sheet, 7), held_by(1));
        assert_eq!(class_test(&sheet, 2), held_by(2));
        assert_eq!(class_test(&sheet, 9), held_by(3));
        assert_eq!(class_test(&sheet, 8), held_by_none_of(3));
    }

    #[test]
    fn of_two_lines_that_hold_a_class_the_first_counts() {
        let sheet = [classes(9, 9), classes(2, 4), classes(4, 5), classes(2, 2)].concat();
        assert_eq!(class_test(&sheet, 2), held_by(2));
        assert_eq!(class_test(&sheet, 4), held_by(2));
        assert_eq!(class_test(&sheet, 5), held_by(3));
    }

    #[test]
    fn lines_for_records_are_counted_and_hold_no_class() {
        let between = [RECORD.as_slice(), &RECORD, &classes(2, 2), &RECORD].concat();
        assert_eq!(class_test(&between, 2), held_by(3));
        assert_eq!(class_test(&between, 3), held_by_none_of(4));
        assert_eq!(class_test(&RECORD.repeat(2), 2), held_by_none_of(2));
    }

    #[test]
    fn boxes_are_counted_and_hold_no_class() {
        // The values 2 stand where a line for classes has its range.
        let twos = box_line([0x0202_0202; 3], [0x0202_0202; 3]);
        let between = [twos.as_slice(), &RECORD, &classes(2, 2), &twos].concat();
        assert_eq!(class_test(&between, 2), held_by(3));
        assert_eq!(class_test(&between, 3), held_by_none_of(4));
        assert_eq!(class_test(&twos.repeat(64), 2), held_by_none_of(64));
        let whole = box_line([i32::MIN; 3], [i32::MAX; 3]);
        for class in 0..=255 {
            assert_eq!(class_test(&whole, class), held_by_none_of(1), "{class}");
        }
    }

    #[test]
    fn the_empty_sheet_has_no_line_to_look_at() {
        for class in 0..=255 {
            assert_eq!(class_test(&[], class), held_by_none_of(0), "{class}");
        }
    }

    #[test]
    fn all_64_lines_are_looked_at() {
        let sheet = [classes(7, 7).repeat(63).as_slice(), &classes(2, 2)].concat();
        assert_eq!(class_test(&sheet, 7), held_by(1));
        assert_eq!(class_test(&sheet, 2), held_by(64));
        assert_eq!(class_test(&sheet, 3), held_by_none_of(64));
        assert_eq!(class_test(&RECORD.repeat(64), 2), held_by_none_of(64));
    }

    #[test]
    fn a_fault_behind_the_line_that_answers_is_given() {
        for (fault, refusal) in [
            (b"KT\x01".as_slice(), Refusal::WrongMark),
            (b"KS\x04", Refusal::UnknownKind),
            (b"KS\x00", Refusal::UnknownKind),
            (b"KS", Refusal::LineCut),
            (b"KS\x01\x02", Refusal::LineCut),
            (&RECORD[..20], Refusal::LineCut),
            (b"KS\x03", Refusal::LineCut),
            (&box_line([1; 3], [0; 3])[..26], Refusal::LineCut),
            (&box_line([0, 0, 1], [0; 3]), Refusal::ReversedRange),
            (&classes(3, 2), Refusal::ReversedRange),
            (&classes(2, 2).repeat(64), Refusal::TooManyLines),
        ] {
            let sheet = [classes(2, 2).as_slice(), fault].concat();
            assert_eq!(class_test(&sheet, 2), Err(refusal));
            assert_eq!(class_test(&sheet, 9), Err(refusal));
        }
    }

    #[test]
    fn a_range_holds_both_its_ends_and_may_lie_above_31() {
        let sheet = [classes(40, 50), classes(0, 1), classes(254, 255)].concat();
        for (class, first_line) in [(40, 1), (50, 1), (0, 2), (1, 2), (254, 3), (255, 3)] {
            assert_eq!(class_test(&sheet, class), held_by(first_line), "{class}");
        }
        for class in [2, 39, 51, 253] {
            assert_eq!(class_test(&sheet, class), held_by_none_of(3), "{class}");
        }
    }

    #[test]
    fn a_class_asked_for_is_one_number_without_flags() {
        for class in 0..=255 {
            let held = (20..=200).contains(&class);
            let answer = ClassLine {
                kept: held,
                lines: 1,
            };
            assert_eq!(class_test(&classes(20, 200), class), Ok(answer), "{class}");
        }
    }

    #[test]
    fn the_answer_agrees_with_class_kept() {
        let sheet = [classes(40, 50).as_slice(), &RECORD, &classes(2, 2)].concat();
        let cut_short = &sheet[..sheet.len() - 1];
        let boxed = [box_line([0; 3], [9; 3]), sheet.clone()].concat();
        for sheet in [
            &[],
            sheet.as_slice(),
            &classes(0, 255),
            &RECORD,
            cut_short,
            &boxed,
        ] {
            for class in 0..=255 {
                let kept = class_test(sheet, class).map(|answer| answer.kept);
                assert_eq!(kept, class_kept(sheet, class), "{class} of {sheet:?}");
            }
        }
    }
}

//! What a refusal of a sheet's bytes is about.

use crate::layout::number_at;
use korbishaf::Sheet;

/// The lengths that a line has, by its kind.
const LENGTHS: [usize; 3] = [5, 21, 27];

/// The axes of a box, in the order of its bytes.
const AXES: [char; 3] = ['X', 'Y', 'Z'];

/// Where the first line that does not pass begins, and what is wrong there.
pub fn about(sheet: &[u8], number: u64) -> Option<String> {
    let mut at = 0;
    for index in 1..=64 {
        let line = sheet.get(at..)?;
        match good_line(line) {
            Some(length) => at += length,
            None => {
                let what = wrong(line, number).unwrap_or_default();
                return Some(format!("line {index} at byte {at}{what}"));
            }
        }
    }
    Some(format!("it begins at byte {at}"))
}

/// The length of the line at the front, if it passes by itself.
fn good_line(bytes: &[u8]) -> Option<usize> {
    let passes = |line: &[u8]| Sheet::from_bytes(line).is_ok();
    let mut lengths = LENGTHS.into_iter();
    lengths.find(|&length| bytes.get(..length).is_some_and(passes))
}

/// What is wrong with a line that does not pass.
fn wrong(line: &[u8], number: u64) -> Option<String> {
    Some(match (number, line) {
        (20, [first, second, ..]) => format!(": {first:02X} {second:02X}"),
        (21, [_, _, kind, ..]) => format!(": kind {kind}"),
        (22, [_]) => ": 1 byte left".into(),
        (22, _) => format!(": {} bytes left", line.len()),
        (23, [_, _, 1, lowest, highest, ..]) => format!(": classes {lowest} to {highest}"),
        (23, [_, _, 3, bounds @ ..]) => reversed_axis(bounds)?,
        _ => return None,
    })
}

/// The first axis of a box whose low value is above its high one.
fn reversed_axis(bounds: &[u8]) -> Option<String> {
    AXES.into_iter().enumerate().find_map(|(place, axis)| {
        let stored = |at| Some(number_at(bounds, 8 * place + at, 4)? as u32 as i32);
        let (low, high) = (stored(0)?, stored(4)?);
        (low > high).then(|| format!(": {axis} from {low} to {high}"))
    })
}

#[cfg(test)]
mod tests {
    use super::*;

    #[test]
    fn lines_before_the_one_that_is_wrong_are_counted() {
        let mut sheet = Sheet::from_text("class 2\nrecord a 7\nbox X 1..2\nclass 3-5").unwrap();
        let good = sheet.as_bytes().to_vec();
        assert_eq!(good.len(), 5 + 21 + 27 + 5);
        let wrong = |more: &[u8], number| about(&[&good, more].concat(), number).unwrap();
        assert_eq!(wrong(b"KS\x04", 21), "line 5 at byte 58: kind 4");
        assert_eq!(wrong(b"KS\x03\0", 22), "line 5 at byte 58: 4 bytes left");
        sheet = Sheet::from_lines(sheet.lines().cycle().take(64)).unwrap();
        let full = [sheet.as_bytes(), b"K"].concat();
        let end = format!("it begins at byte {}", sheet.as_bytes().len());
        assert_eq!(about(&full, 24), Some(end));
    }
}

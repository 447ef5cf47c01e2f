//! Boxes: axes, each with its range of stored values.

use super::super::Line;
use super::super::bounds::{AXES, WHOLE_AXIS};
use super::cursor::{Cursor, Word};
use super::error::{TextError, found};

/// What stands between the two ends of a range. It is not the `-` of classes, since stored values may be negative.
const SEPARATOR: &[u8] = b"..";

/// What the first end of a range may be.
const A_LOW: &str = "expected the low stored value before the '..', from -2147483648 to 2147483647";

/// What the other end may be.
const A_HIGH: &str =
    "expected the high stored value behind the '..', from -2147483648 to 2147483647";

/// What is often meant where an end of a range has a decimal point.
const WHOLE_NUMBERS: &str = " (stored values are whole numbers, before scale and offset)";

/// The range of each axis, as far as the axes are read.
type Ranges = [Option<(i32, i32)>; 3];

/// What is behind `box`, up to the line's end: at least one axis with its range, in any order and none twice.
pub(super) fn read(cursor: &mut Cursor<'_>) -> Result<Line, TextError> {
    let mut ranges: Ranges = [None; 3];
    loop {
        let word = cursor.word();
        if word.bytes.is_empty() && ranges != [None; 3] {
            break;
        }
        let axis = read_axis(cursor, word, &ranges)?;
        ranges[axis] = Some(read_range(cursor, AXES[axis])?);
    }
    let ranges = ranges.map(|range| range.unwrap_or(WHOLE_AXIS));
    let (low, high) = (ranges.map(|(low, _)| low), ranges.map(|(_, high)| high));
    Ok(Line::bounding_box(low, high))
}

/// The place of the axis that a word names, which is none of those that are read.
fn read_axis(cursor: &Cursor<'_>, word: Word<'_>, ranges: &Ranges) -> Result<usize, TextError> {
    let is_named = |name: &&str| word.bytes.eq_ignore_ascii_case(name.as_bytes());
    let words = match AXES.iter().position(is_named) {
        Some(axis) if ranges[axis].is_none() => return Ok(axis),
        Some(axis) => format!("expected each axis once, found another '{}'", AXES[axis]),
        None => {
            let or_end = match ranges {
                [None, None, None] => "",
                _ => ", or the end of the line",
            };
            let found = found(word.bytes);
            format!("expected an axis, 'X', 'Y' or 'Z', before its range{or_end}, {found}")
        }
    };
    Err(cursor.error(word.at, words))
}

/// The range that stands behind the name of an axis.
fn read_range(cursor: &mut Cursor<'_>, axis: &str) -> Result<(i32, i32), TextError> {
    let word = cursor.word();
    let (low, Some(high)) = word.split_at(SEPARATOR) else {
        let found = found(word.bytes);
        let words =
            format!("expected a range without blanks behind '{axis}', as in '-20..35', {found}");
        return Err(cursor.error(word.at, words));
    };
    let low = read_stored(cursor, low, A_LOW)?;
    let high = read_stored(cursor, high, A_HIGH)?;
    if low > high {
        let found = found(word.bytes);
        let words = format!("expected the low value before the high one, '{high}..{low}', {found}");
        return Err(cursor.error(word.at, words));
    }
    Ok((low, high))
}

fn read_stored(cursor: &Cursor<'_>, word: Word<'_>, expected: &str) -> Result<i32, TextError> {
    stored_value(word.bytes).ok_or_else(|| {
        let hint = match word.bytes.contains(&b'.') {
            true => WHOLE_NUMBERS,
            false => "",
        };
        cursor.error(word.at, format!("{expected}, {}{hint}", found(word.bytes)))
    })
}

/// The stored value that these bytes write: digits, and a `-` before them where it is negative.
fn stored_value(bytes: &[u8]) -> Option<i32> {
    let digits = bytes.strip_prefix(b"-").unwrap_or(bytes);
    // A plus is no digit, though the library of Rust takes one.
    let only_digits = digits.iter().all(u8::is_ascii_digit);
    std::str::from_utf8(bytes)
        .ok()
        .filter(|_| only_digits)?
        .parse()
        .ok()
}

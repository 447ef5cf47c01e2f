//! The text form of a sheet.

mod axes;
mod class_names;
mod cursor;
mod error;
mod near;
mod quoted;

pub use class_names::class_name;
pub use error::TextError;

use super::user_id::{UserId, stands_bare};
use super::{Line, MOST_LINES};
use cursor::{Cursor, Word};
use error::found;
use near::did_you_mean;

/// What a class may be.
const A_CLASS: &str = "expected a class from 0 to 255, 'lowest-highest' or a class name";

/// What a class that stands by itself may be.
const ONE_CLASS: &str = "expected a class from 0 to 255 or a class name";

/// What the other end of a range may be.
const A_HIGHEST: &str = "expected the highest class behind the '-', from 0 to 255";

/// What is often meant where a range has names.
const NUMBERS: &str = " (a range has numbers, as in '3-5')";

/// What some editors put before a text in UTF-8.
const BYTE_ORDER_MARK: &[u8] = b"\xEF\xBB\xBF";

/// What is often meant where a user ID is followed by too much.
const QUOTES: &str = "a user ID with a blank stands in double quotes";

/// The lines of a text, or its first mistake.
pub(super) fn read(text: &[u8]) -> Result<Vec<Line>, TextError> {
    let mut lines = Vec::new();
    let text = text.strip_prefix(BYTE_ORDER_MARK).unwrap_or(text);
    for (number, bytes) in (1..).zip(text.split(|&byte| byte == b'\n')) {
        let mut cursor = Cursor::new(number, bytes.strip_suffix(b"\r").unwrap_or(bytes));
        let keyword = cursor.word();
        if keyword.bytes.is_empty() {
            continue;
        }
        if lines.len() == MOST_LINES {
            let words = format!("expected at most {MOST_LINES} lines, found another");
            return Err(cursor.error(keyword.at, words));
        }
        lines.push(read_line(&mut cursor, keyword)?);
    }
    Ok(lines)
}

/// The class that a word stands for: a number from 0 to 255 or a name, as one behind `class` in the text of a sheet.
///
/// # Errors
///
/// A [`TextError`] that says what would be right. Its place is the front of the word.
///
/// ```
/// use korbishaf::class_number;
///
/// assert_eq!(class_number("66")?, 66);
/// assert_eq!(class_number("Low_Vegetation")?, 3);
/// let words = "expected a class from 0 to 255 or a class name, found 'gruond'; did you mean 'ground'?";
/// assert_eq!(class_number("gruond").unwrap_err().words(), words);
/// # Ok::<(), korbishaf::TextError>(())
/// ```
pub fn class_number(word: impl AsRef<[u8]>) -> Result<u8, TextError> {
    let word = word.as_ref();
    let class = class_names::class_named(word).or_else(|| class_in_digits(word));
    class.ok_or_else(|| {
        let guess = did_you_mean(word, class_names::all());
        TextError::new(1, 1, format!("{ONE_CLASS}, {}{guess}", found(word)))
    })
}

/// The line that a keyword begins.
fn read_line(cursor: &mut Cursor<'_>, keyword: Word<'_>) -> Result<Line, TextError> {
    match keyword.bytes {
        b"class" => {
            let line = read_classes(cursor)?;
            expect_end(cursor, "a range has no blanks, as in '3-5'")?;
            Ok(line)
        }
        b"record" => {
            let line = read_record(cursor)?;
            expect_end(cursor, QUOTES)?;
            Ok(line)
        }
        b"box" => axes::read(cursor),
        other => {
            let guess = did_you_mean(other, ["class", "record", "box"]);
            let found = found(other);
            let words = format!("expected 'class', 'record' or 'box', {found}{guess}");
            Err(cursor.error(keyword.at, words))
        }
    }
}

/// What is behind `class`: a name, a class or a range.
fn read_classes(cursor: &mut Cursor<'_>) -> Result<Line, TextError> {
    let word = cursor.word();
    if let Some(class) = class_names::class_named(word.bytes) {
        return Ok(Line::class(class));
    }
    if !word.bytes.first().is_some_and(u8::is_ascii_digit) {
        let guess = did_you_mean(word.bytes, class_names::all());
        let hint = if begins_with_name(word.bytes) {
            NUMBERS
        } else {
            &guess
        };
        let words = format!("{A_CLASS}, {}{hint}", found(word.bytes));
        return Err(cursor.error(word.at, words));
    }
    let (first, last) = word.split_at(b"-");
    let lowest = read_class(cursor, first, A_CLASS)?;
    let highest = last.map_or(Ok(lowest), |last| read_class(cursor, last, A_HIGHEST))?;
    if lowest > highest {
        let words = format!(
            "expected the lowest class before the highest, '{highest}-{lowest}', {}",
            found(word.bytes)
        );
        return Err(cursor.error(word.at, words));
    }
    Ok(Line::classes(lowest, highest))
}

fn read_class(cursor: &Cursor<'_>, word: Word<'_>, expected: &str) -> Result<u8, TextError> {
    class_in_digits(word.bytes).ok_or_else(|| {
        let is_name = class_names::class_named(word.bytes).is_some();
        let hint = if is_name { NUMBERS } else { "" };
        cursor.error(word.at, format!("{expected}, {}{hint}", found(word.bytes)))
    })
}

/// Whether a word is the name of a class, a `-` and more.
fn begins_with_name(word: &[u8]) -> bool {
    let mut dashes = (0..word.len()).filter(|&place| word[place] == b'-');
    dashes.any(|place| class_names::class_named(&word[..place]).is_some())
}

/// What is behind `record`: a user ID and a record ID.
fn read_record(cursor: &mut Cursor<'_>) -> Result<Line, TextError> {
    let at = cursor.skip_blanks();
    let bytes = match cursor.rest().first() {
        Some(b'"') => quoted::read(cursor)?,
        _ => read_bare(cursor)?.to_vec(),
    };
    let user_id = UserId::new(bytes).map_err(|long| cursor.error(at, long.to_string()))?;
    let record_id = read_record_id(cursor)?;
    Ok(Line::Record { user_id, record_id })
}

fn read_record_id(cursor: &mut Cursor<'_>) -> Result<u16, TextError> {
    let word = cursor.word();
    number(word.bytes).ok_or_else(|| {
        let found = found(word.bytes);
        let hint = match word.bytes.first() {
            Some(byte) if byte.is_ascii_alphabetic() => format!(" ({QUOTES})"),
            _ => String::new(),
        };
        let words =
            format!("expected a record ID from 0 to 65535 behind the user ID, {found}{hint}");
        cursor.error(word.at, words)
    })
}

/// A user ID that is not quoted.
fn read_bare<'a>(cursor: &mut Cursor<'a>) -> Result<&'a [u8], TextError> {
    let word = cursor.word();
    if word.bytes.is_empty() {
        return Err(cursor.error(word.at, "expected a user ID, found nothing".into()));
    }
    match word.bytes.iter().position(|&byte| !stands_bare(byte)) {
        None => Ok(word.bytes),
        Some(place) => {
            let words = format!(
                "expected a user ID in double quotes, as in \"my survey\", since it has {}",
                error::shown(&word.bytes[place..=place])
            );
            Err(cursor.error(word.at + place, words))
        }
    }
}

/// Nothing but a comment may be left of a line. The hint says what is often meant where there is more.
fn expect_end(cursor: &mut Cursor<'_>, hint: &str) -> Result<(), TextError> {
    let word = cursor.word();
    if word.bytes.is_empty() {
        return Ok(());
    }
    let words = format!(
        "expected the end of the line or a comment, {} ({hint})",
        found(word.bytes)
    );
    Err(cursor.error(word.at, words))
}

/// The class that these digits write.
fn class_in_digits(digits: &[u8]) -> Option<u8> {
    number(digits)?.try_into().ok()
}

/// The number that these digits write, if they are digits and it has no more than 16 bits.
fn number(digits: &[u8]) -> Option<u16> {
    let text = std::str::from_utf8(digits).ok()?;
    // A sign is no digit, though the library of Rust takes one.
    text.bytes()
        .all(|byte| byte.is_ascii_digit())
        .then_some(text)?
        .parse()
        .ok()
}

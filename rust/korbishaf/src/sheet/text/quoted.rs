//! User IDs in double quotes.

use super::cursor::Cursor;
use super::error::{TextError, found};

/// The bytes between double quotes, the first of which is next.
pub(super) fn read(cursor: &mut Cursor<'_>) -> Result<Vec<u8>, TextError> {
    let start = cursor.at();
    cursor.advance(1);
    let mut bytes = Vec::new();
    loop {
        match cursor.rest() {
            [] => {
                let words = "expected a double quote at the user ID's end, found nothing";
                return Err(cursor.error(start, words.into()));
            }
            [b'"', ..] => break,
            [b'\\', ..] => bytes.push(read_escape(cursor)?),
            [byte @ b' '..=b'~', ..] => {
                bytes.push(*byte);
                cursor.advance(1);
            }
            [byte, ..] => {
                let words = format!("expected this byte as an escape, '\\x{byte:02X}'");
                return Err(cursor.error(cursor.at(), words));
            }
        }
    }
    let behind = cursor.advance(1);
    if !cursor.is_between_words() {
        let words = format!(
            "expected a blank behind the quote, {}",
            found(&cursor.rest()[..1])
        );
        return Err(cursor.error(behind, words));
    }
    Ok(bytes)
}

/// The byte of an escape, whose backslash is next.
fn read_escape(cursor: &mut Cursor<'_>) -> Result<u8, TextError> {
    let (byte, length) = match cursor.rest() {
        [_, byte @ (b'"' | b'\\'), ..] => (Some(*byte), 2),
        [_, b'x', high, low, ..] => (hexadecimal(*high, *low), 4),
        _ => (None, 0),
    };
    let at = cursor.at();
    cursor.advance(length);
    match byte {
        Some(0) => {
            let words = "expected no zero byte, since a user ID ends before its first";
            Err(cursor.error(at, words.into()))
        }
        Some(byte) => Ok(byte),
        None => {
            let words = r#"expected \", \\ or \x and two hexadecimal digits behind a backslash"#;
            Err(cursor.error(at, words.into()))
        }
    }
}

fn hexadecimal(high: u8, low: u8) -> Option<u8> {
    let digit = |digit: u8| char::from(digit).to_digit(16);
    u8::try_from(digit(high)? * 16 + digit(low)?).ok()
}

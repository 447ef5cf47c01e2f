//! Mistakes in a text.

use std::fmt;

/// How many bytes of a text an error shows.
const SHOWN: usize = 32;

/// A mistake in the text of a sheet: where it is, and what is wrong.
///
/// `{:?}` shows the same words as `{}`, since a `main` that returns an error prints it so.
///
/// ```
/// let mistake = korbishaf::Sheet::from_text("class 2\nclas 6").unwrap_err();
/// assert_eq!((mistake.line(), mistake.column()), (2, 1));
/// assert_eq!(
///     mistake.to_string(),
///     "line 2, column 1: expected 'class', 'record' or 'box', found 'clas'; did you mean 'class'?"
/// );
/// ```
#[derive(Clone, PartialEq, Eq, Hash)]
pub struct TextError {
    line: usize,
    column: usize,
    words: String,
}

impl TextError {
    pub(super) fn new(line: usize, column: usize, words: String) -> Self {
        TextError {
            line,
            column,
            words,
        }
    }

    /// The line that it is in, from 1.
    #[must_use]
    pub fn line(&self) -> usize {
        self.line
    }

    /// The column where it begins, from 1: the byte of the line.
    #[must_use]
    pub fn column(&self) -> usize {
        self.column
    }

    /// What is wrong, and what would be right.
    #[must_use]
    pub fn words(&self) -> &str {
        &self.words
    }
}

impl fmt::Display for TextError {
    fn fmt(&self, f: &mut fmt::Formatter<'_>) -> fmt::Result {
        let TextError {
            line,
            column,
            words,
        } = self;
        write!(f, "line {line}, column {column}: {words}")
    }
}

impl fmt::Debug for TextError {
    fn fmt(&self, f: &mut fmt::Formatter<'_>) -> fmt::Result {
        fmt::Display::fmt(self, f)
    }
}

impl std::error::Error for TextError {}

/// Says what was found.
pub(super) fn found(bytes: &[u8]) -> String {
    match bytes {
        [] => "found nothing".into(),
        _ => format!("found {}", shown(bytes)),
    }
}

/// Bytes between quotes, as printable ASCII, and not too many of them.
pub(super) fn shown(bytes: &[u8]) -> String {
    let (start, more) = match bytes.get(..SHOWN) {
        Some(start) if bytes.len() > SHOWN => (start, ".."),
        _ => (bytes, ""),
    };
    let mut shown = String::from("'");
    for &byte in start {
        match byte {
            b'\\' | b'\'' => shown.extend(['\\', char::from(byte)]),
            b' '..=b'~' => shown.push(char::from(byte)),
            _ => shown.push_str(&format!("\\x{byte:02X}")),
        }
    }
    shown + more + "'"
}

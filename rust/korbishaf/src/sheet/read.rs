//! Sheets as bytes or as text.

use super::line::MARK;
use super::{Sheet, TextError};
use crate::error::Error;
use std::fmt;

impl Sheet {
    /// The sheet of these bytes, or of this text: bytes that begin with `4B 53` ("KS") or are empty are taken by
    /// [`from_bytes`](Sheet::from_bytes), all others by [`from_text`](Sheet::from_text).
    ///
    /// # Errors
    ///
    /// What the one or the other gives.
    ///
    /// ```
    /// use korbishaf::{Line, Sheet};
    ///
    /// let sheet = Sheet::from_lines([Line::class(2)])?;
    /// assert_eq!(Sheet::read([0x4B, 0x53, 1, 2, 2])?, sheet);
    /// assert_eq!(Sheet::read("class 2")?, sheet);
    /// # Ok::<(), korbishaf::SheetError>(())
    /// ```
    pub fn read(bytes: impl AsRef<[u8]>) -> Result<Self, SheetError> {
        let bytes = bytes.as_ref();
        if bytes.is_empty() || bytes.starts_with(MARK) {
            Ok(Sheet::from_bytes(bytes)?)
        } else {
            Ok(Sheet::from_text(bytes)?)
        }
    }
}

/// Why [`Sheet::read`] gives no sheet. It shows itself as what it holds does.
#[derive(Clone, PartialEq, Eq)]
#[non_exhaustive]
pub enum SheetError {
    /// The bytes do not pass the library's check.
    Bytes(Error),
    /// The text has a mistake.
    Text(TextError),
}

impl From<Error> for SheetError {
    fn from(refused: Error) -> Self {
        SheetError::Bytes(refused)
    }
}

impl From<TextError> for SheetError {
    fn from(mistake: TextError) -> Self {
        SheetError::Text(mistake)
    }
}

impl fmt::Display for SheetError {
    fn fmt(&self, f: &mut fmt::Formatter<'_>) -> fmt::Result {
        match self {
            SheetError::Bytes(refused) => refused.fmt(f),
            SheetError::Text(mistake) => mistake.fmt(f),
        }
    }
}

impl fmt::Debug for SheetError {
    fn fmt(&self, f: &mut fmt::Formatter<'_>) -> fmt::Result {
        fmt::Display::fmt(self, f)
    }
}

impl std::error::Error for SheetError {}

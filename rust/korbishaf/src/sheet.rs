//! The keep sheet.

mod bounds;
mod line;
mod read;
mod text;
mod user_id;

pub use line::{Line, Lines};
pub use read::SheetError;
pub use text::{TextError, class_name, class_number};
pub use user_id::{LongUserId, UserId};

use crate::bytes;
use crate::error::Error;
use std::fmt;
use std::str::FromStr;

/// The most lines that a sheet has.
const MOST_LINES: usize = 64;

/// A keep sheet that has passed the library's own check: what may be seen of a file.
///
/// A sheet is a list of at most 64 [`Line`]s. It is made of these ([`from_lines`](Sheet::from_lines)), of the bytes
/// that the specification lays down ([`from_bytes`](Sheet::from_bytes)) or of a text
/// ([`from_text`](Sheet::from_text)); [`read`](Sheet::read) takes bytes or text. The empty sheet keeps nothing. Two
/// sheets are equal where their bytes are.
///
/// ```
/// use korbishaf::{Line, Sheet};
///
/// let sheet = Sheet::from_lines([Line::class(2), Line::record("LASF_Projection", 34735)?])?;
/// assert_eq!(sheet.to_text(), "class 2\nrecord LASF_Projection 34735\n");
/// assert_eq!(Sheet::from_text("class ground\nrecord LASF_Projection 34735")?, sheet);
/// assert_eq!(Sheet::from_bytes(*b"KS\x01\x02\x02KS\x02LASF_Projection\0\xAF\x87")?, sheet);
/// # Ok::<(), Box<dyn std::error::Error>>(())
/// ```
#[derive(Clone, Debug, Default, PartialEq, Eq, Hash)]
pub struct Sheet {
    bytes: Vec<u8>,
}

impl Sheet {
    /// The empty sheet, which keeps nothing.
    #[must_use]
    pub const fn new() -> Self {
        Sheet { bytes: Vec::new() }
    }

    /// The sheet of these bytes.
    ///
    /// # Errors
    ///
    /// 20 to 24 where the library's check refuses them.
    ///
    /// ```
    /// use korbishaf::Sheet;
    ///
    /// assert!(Sheet::from_bytes([0x4B, 0x53, 1, 2, 2]).is_ok());
    /// assert_eq!(Sheet::from_bytes([0x4B, 0x53, 1, 3, 2]).unwrap_err().number(), 23);
    /// ```
    pub fn from_bytes(bytes: impl Into<Vec<u8>>) -> Result<Self, Error> {
        let bytes = bytes.into();
        bytes::check_sheet(&bytes)?;
        Ok(Sheet { bytes })
    }

    /// The sheet of these lines.
    ///
    /// # Errors
    ///
    /// 23 where a line's lowest class is above its highest, or a box has a low value above its high one; 24 where there
    /// are more than 64 lines.
    ///
    /// ```
    /// use korbishaf::{Line, Sheet};
    ///
    /// let lines = [Line::classes(2, 5), Line::class(9)];
    /// assert!(Sheet::from_lines(lines)?.lines().eq(lines));
    /// assert_eq!(Sheet::from_lines([Line::classes(3, 2)]).unwrap_err().number(), 23);
    /// # Ok::<(), korbishaf::Error>(())
    /// ```
    pub fn from_lines(lines: impl IntoIterator<Item = Line>) -> Result<Self, Error> {
        let mut bytes = Vec::new();
        // One line too many is enough for the check to refuse it, however many there are.
        for line in lines.into_iter().take(MOST_LINES + 1) {
            line.append_to(&mut bytes);
        }
        Self::from_bytes(bytes)
    }

    /// The sheet of a text, in which each line is one of
    ///
    /// - `class 2`, `class 3-5` or `class ground`: a class, the classes from the lowest to the highest, or a class by
    ///   its name in LAS 1.2, which are `created-never-classified` (0), `unclassified`, `ground`, `low-vegetation`,
    ///   `medium-vegetation`, `high-vegetation`, `building`, `low-point`, `model-key-point`, `water` (9) and `overlap`
    ///   (12), in any case and with `-` or `_`. A number may go up to 255, though points have
    ///   [classes](crate#classes-and-flags) up to 31;
    /// - `record LASF_Projection 34735`: a user ID of at most 16 bytes and a record ID from 0 to 65535. A user ID that
    ///   is empty or has a blank, a quote, a `#`, a backslash, a control or a byte that is not ASCII stands in double
    ///   quotes, in which `\"`, `\\` and `\xNN` (two hexadecimal digits, not `\x00`) stand for a byte. Spaces at its
    ///   end do not count;
    /// - `box X -1500..2000 Y 0..4000 Z -20..35`: a [box](crate#boxes), on each axis from the low to the high stored
    ///   value, whole numbers from -2147483648 to 2147483647. An axis that is left out is not bounded, as Z in
    ///   `box X -1500..2000 Y 0..4000`; one at least has to be there. Axes stand in any order and in any case;
    /// - blank, or a comment from `#` on, which may also follow on one of the others.
    ///
    /// Words are parted by spaces or tabs. A byte order mark before the text is skipped.
    ///
    /// # Errors
    ///
    /// A [`TextError`] that says where the first mistake is, and what would be right.
    ///
    /// ```
    /// use korbishaf::{Line, Sheet};
    ///
    /// let sheet = Sheet::from_text("class Ground # as surveyed\n\nrecord \"my survey\" 7\n")?;
    /// assert!(sheet.lines().eq([Line::class(2), Line::record("my survey", 7)?]));
    ///
    /// let yard = Sheet::from_text("class ground\nbox X -1500..2000 Y 0..4000")?;
    /// let anywhere_in_z = Line::bounding_box([-1500, 0, i32::MIN], [2000, 4000, i32::MAX]);
    /// assert!(yard.lines().eq([Line::class(2), anywhere_in_z]));
    ///
    /// let mistake = Sheet::from_text("class 2\nclass gruond").unwrap_err();
    /// assert_eq!((mistake.line(), mistake.column()), (2, 7));
    /// # Ok::<(), Box<dyn std::error::Error>>(())
    /// ```
    pub fn from_text(text: impl AsRef<[u8]>) -> Result<Self, TextError> {
        let mut bytes = Vec::new();
        for line in text::read(text.as_ref())? {
            line.append_to(&mut bytes);
        }
        // The text's own rules are as strict as the check, which a test tries on many thousands of texts.
        Ok(Self::from_bytes(bytes).expect("the sheet of a good text passes"))
    }

    /// The sheet's bytes.
    #[must_use]
    pub fn as_bytes(&self) -> &[u8] {
        &self.bytes
    }

    /// The sheet's lines, in order.
    pub fn lines(&self) -> Lines<'_> {
        Lines::new(&self.bytes)
    }

    /// The sheet as a text, a line for each of its own, which [`from_text`](Sheet::from_text) reads.
    ///
    /// A text that is read and written again has the same lines: its comments and its layout are gone, and a class that
    /// it had by name is there by number, `class 2` for `class ground`. A box has its axes in the order X, Y, Z and
    /// without those that are not bounded, unless none is. Bytes that are written as a text and read again are a sheet
    /// that keeps the same: what stood behind the end of a user ID is gone.
    #[must_use]
    pub fn to_text(&self) -> String {
        self.to_string()
    }
}

/// The same as [`to_text`](Sheet::to_text).
impl fmt::Display for Sheet {
    fn fmt(&self, f: &mut fmt::Formatter<'_>) -> fmt::Result {
        self.lines().try_for_each(|line| writeln!(f, "{line}"))
    }
}

/// The same as [`from_text`](Sheet::from_text).
impl FromStr for Sheet {
    type Err = TextError;

    fn from_str(text: &str) -> Result<Self, TextError> {
        Sheet::from_text(text)
    }
}

/// The same as [`from_bytes`](Sheet::from_bytes).
impl TryFrom<Vec<u8>> for Sheet {
    type Error = Error;

    fn try_from(bytes: Vec<u8>) -> Result<Self, Error> {
        Sheet::from_bytes(bytes)
    }
}

/// Whether a line of a sheet contains a class, from 0 to 255.
///
/// The class has no [flags](crate#classes-and-flags) in it: of a [`Point`](crate::Point), ask for its `classification`.
/// A withheld point is not released even where its class is kept, and neither is one outside all of the sheet's
/// [boxes](crate#boxes), which are not looked at here.
///
/// ```
/// use korbishaf::{Line, Sheet, class_kept};
///
/// let sheet = Sheet::from_lines([Line::classes(2, 5)])?;
/// assert!(class_kept(&sheet, 5));
/// assert!(!class_kept(&sheet, 6));
/// assert!(!class_kept(&sheet, 66)); // 66 is a class by itself here, and no key point of class 2
/// # Ok::<(), korbishaf::Error>(())
/// ```
#[must_use]
pub fn class_kept(sheet: &Sheet, class: u8) -> bool {
    bytes::class_kept(sheet.as_bytes(), class).expect(PASSED)
}

/// Whether a line of a sheet holds a class, and how many lines of any kind were looked at for it.
#[derive(Clone, Copy, Debug, PartialEq, Eq, Hash)]
pub struct ClassLine {
    /// Whether a line holds the class. Line number `lines` answered then, counted from 1.
    pub kept: bool,
    /// The lines that were looked at: those up to and with the first that holds the class, or all if none does.
    pub lines: usize,
}

/// Whether a line of a sheet holds a class, from 0 to 255, and how many lines were looked at for it.
///
/// The test leaves at the first line that holds the class: where `kept` is true, line number `lines` answered,
/// counted from 1. Lines for records and lines of boxes count as any others, and hold no class. For the rest it is
/// [`class_kept`].
///
/// ```
/// use korbishaf::{ClassLine, Line, Sheet, class_test};
///
/// let sheet = Sheet::from_text("record yard 7\nclass 2-5\nclass building\nclass 5")?;
/// let answer = class_test(&sheet, 5);
/// assert_eq!(answer, ClassLine { kept: true, lines: 2 });
/// assert_eq!(sheet.lines().nth(answer.lines - 1), Some(Line::classes(2, 5)));
///
/// assert_eq!(class_test(&sheet, 9), ClassLine { kept: false, lines: 4 });
/// # Ok::<(), korbishaf::TextError>(())
/// ```
#[must_use]
pub fn class_test(sheet: &Sheet, class: u8) -> ClassLine {
    bytes::class_test(sheet.as_bytes(), class).expect(PASSED)
}

/// Whether a sheet keeps the variable length records of a user ID and a record ID. The user ID has any number of
/// bytes; it and the sheet's own are [cut](crate#texts).
///
/// ```
/// use korbishaf::{Line, Sheet, record_kept};
///
/// let sheet = Sheet::from_lines([Line::record("LASF_Projection", 34735)?])?;
/// assert!(record_kept(&sheet, b"LASF_Projection", 34735));
/// assert!(!record_kept(&sheet, b"LASF_Projection", 34736));
/// # Ok::<(), Box<dyn std::error::Error>>(())
/// ```
#[must_use]
pub fn record_kept(sheet: &Sheet, user_id: &[u8], record_id: u16) -> bool {
    bytes::record_kept(sheet.as_bytes(), user_id, record_id).expect(PASSED)
}

/// Why the library never refuses a question about a sheet.
const PASSED: &str = "a sheet has passed the check";

//! User IDs.

use crate::cut;
use std::fmt;

/// The width of the field that a user ID stands in.
const WIDTH: usize = 16;

/// A user ID: at most 16 bytes, none of them zero, and no space at their end.
///
/// It shows itself as a sheet's text has it: bare, or in double quotes where it cannot stand bare.
///
/// ```
/// use korbishaf::UserId;
///
/// assert_eq!(UserId::new("LASF_Projection")?.to_string(), "LASF_Projection");
/// assert_eq!(UserId::new("my \"own\"")?.to_string(), r#""my \"own\"""#);
/// assert_eq!(UserId::new(b"M\xFCller")?.to_string(), r#""M\xFCller""#);
/// # Ok::<(), korbishaf::LongUserId>(())
/// ```
#[derive(Clone, Copy, Default, PartialEq, Eq, PartialOrd, Ord, Hash)]
pub struct UserId {
    /// Its bytes, and zeros behind them.
    field: [u8; WIDTH],
}

impl UserId {
    /// The user ID of these bytes, of which those beyond their [cut](crate#texts) do not count.
    ///
    /// # Errors
    ///
    /// Where more than 16 bytes count.
    ///
    /// ```
    /// use korbishaf::UserId;
    ///
    /// assert_eq!(UserId::new("yard    ")?, UserId::new("yard")?);
    /// assert_eq!(UserId::new("sixteen letters!     ")?.as_bytes(), b"sixteen letters!");
    /// assert_eq!(UserId::new("seventeen letters     ").unwrap_err().length(), 17);
    /// # Ok::<(), korbishaf::LongUserId>(())
    /// ```
    pub fn new(user_id: impl AsRef<[u8]>) -> Result<Self, LongUserId> {
        let user_id = cut(user_id.as_ref());
        let length = user_id.len();
        let mut field = [0; WIDTH];
        let room = field.get_mut(..length).ok_or(LongUserId { length })?;
        room.copy_from_slice(user_id);
        Ok(UserId { field })
    }

    /// Its bytes.
    #[must_use]
    pub fn as_bytes(&self) -> &[u8] {
        cut(&self.field)
    }

    /// The text field: its bytes, and zeros behind them.
    pub(super) fn field(&self) -> &[u8; WIDTH] {
        &self.field
    }
}

/// Whether a byte may stand in a user ID that is not quoted.
pub(super) fn stands_bare(byte: u8) -> bool {
    byte.is_ascii_graphic() && !matches!(byte, b'"' | b'#' | b'\\')
}

impl fmt::Display for UserId {
    fn fmt(&self, f: &mut fmt::Formatter<'_>) -> fmt::Result {
        let bytes = self.as_bytes();
        if !bytes.is_empty() && bytes.iter().copied().all(stands_bare) {
            return bytes.iter().try_for_each(|&b| write!(f, "{}", b as char));
        }
        f.write_str("\"")?;
        for &byte in bytes {
            match byte {
                b'"' | b'\\' => write!(f, "\\{}", byte as char)?,
                b' '..=b'~' => write!(f, "{}", byte as char)?,
                _ => write!(f, "\\x{byte:02X}")?,
            }
        }
        f.write_str("\"")
    }
}

impl fmt::Debug for UserId {
    fn fmt(&self, f: &mut fmt::Formatter<'_>) -> fmt::Result {
        write!(f, "UserId({self})")
    }
}

/// A user ID that is too long: more than 16 bytes of it count.
#[derive(Clone, Copy, PartialEq, Eq, Hash)]
pub struct LongUserId {
    length: usize,
}

impl LongUserId {
    /// The number of its bytes that count.
    #[must_use]
    pub fn length(&self) -> usize {
        self.length
    }
}

impl fmt::Display for LongUserId {
    fn fmt(&self, f: &mut fmt::Formatter<'_>) -> fmt::Result {
        write!(
            f,
            "expected a user ID of at most {WIDTH} bytes, found one of {}",
            self.length
        )
    }
}

impl fmt::Debug for LongUserId {
    fn fmt(&self, f: &mut fmt::Formatter<'_>) -> fmt::Result {
        fmt::Display::fmt(self, f)
    }
}

impl std::error::Error for LongUserId {}

//! Kinds of refusals.

/// What a refusal is about: its number's group in the specification.
///
/// ```
/// use korbishaf::ErrorKind;
///
/// assert_eq!(korbishaf::check_file(b"LASF").unwrap_err().kind(), ErrorKind::File);
/// ```
#[derive(Clone, Copy, Debug, PartialEq, Eq, Hash)]
#[non_exhaustive]
pub enum ErrorKind {
    /// The file does not pass: 1 to 10.
    File,
    /// A point: there is none of that index (11), its bytes and its format do not fit (12), or one of its fields does
    /// not fit into a record (13).
    Point,
    /// There is no variable length record of that index or at that position: 18.
    Record,
    /// The keep sheet does not pass: 20 to 24.
    Sheet,
    /// The output is shorter than the released file: 30.
    OutputTooShort,
    /// The list is shorter than the kept records and points together: 31.
    ListTooShort,
    /// A GeoKey or its value is not found: 40 to 46.
    GeoKey,
    /// A file of the program `las_release`: 50 and 51, which no function of the library gives.
    Program,
    /// Any other number. This edition of the library gives none.
    Unknown,
}

impl ErrorKind {
    /// The kind of a number.
    pub(super) fn of(number: u64) -> Self {
        match number {
            1..=10 => ErrorKind::File,
            11..=13 => ErrorKind::Point,
            18 => ErrorKind::Record,
            20..=24 => ErrorKind::Sheet,
            30 => ErrorKind::OutputTooShort,
            31 => ErrorKind::ListTooShort,
            40..=46 => ErrorKind::GeoKey,
            50 | 51 => ErrorKind::Program,
            _ => ErrorKind::Unknown,
        }
    }
}

//! Why something was not done.

use std::error::Error;
use std::fmt;

/// A refusal, with the specification's number for it.
#[derive(Debug, Clone, Copy, PartialEq, Eq)]
pub enum Refusal {
    /// The file has fewer than 227 bytes.
    FileTooSmall,
    /// The signature is not "LASF".
    NotLas,
    /// The version is not 1.2.
    WrongVersion,
    /// The header size is below 227 or above the file's length.
    BadHeaderSize,
    /// The point format is above 3.
    UnknownFormat,
    /// The record length is below the format's size.
    RecordTooShort,
    /// The point offset is below the header size or above the file's length.
    BadPointOffset,
    /// A counted record runs past the point offset.
    RecordPastPoints,
    /// The points run past the file's end.
    PointsPastEnd,
    /// A scale or an offset is out of its range.
    BadScaling,
    /// The point index is not below the number of points.
    NoSuchPoint,
    /// The point's bytes or room do not fit the format and record length.
    WrongPointLength,
    /// A field is too large to encode.
    FieldTooLarge,
    /// There is no record for that index and position.
    NoSuchRecord,
    /// A sheet line does not begin with its mark.
    WrongMark,
    /// A sheet line is of an unknown kind.
    UnknownKind,
    /// A sheet line is cut short.
    LineCut,
    /// A sheet line's lowest class is above its highest, or a low value of its box is above the high one.
    ReversedRange,
    /// The sheet has more than 64 lines.
    TooManyLines,
    /// The output is shorter than the released file.
    OutputTooShort {
        /// The released file's length.
        needed: u64,
    },
    /// The cutting list is shorter than the kept records and points together.
    ListTooShort,
    /// There is no GeoKey directory.
    NoDirectory,
    /// The GeoKey directory is not sound.
    BadDirectory,
    /// The key is not in the directory.
    NoSuchKey,
    /// The key's location is unknown.
    UnknownLocation,
    /// The key's count is not 1 where it has to be.
    WrongCount,
    /// The parameter record is absent.
    NoParameters,
    /// The value runs past the parameter record.
    ValuePastParameters,
}

impl Refusal {
    /// The specification's number (docs/SPECIFICATION.md).
    pub fn number(self) -> u64 {
        self.number_and_words().0
    }

    fn number_and_words(self) -> (u64, &'static str) {
        match self {
            Self::FileTooSmall => (1, "fewer than 227 bytes"),
            Self::NotLas => (2, "signature is not \"LASF\""),
            Self::WrongVersion => (3, "version is not 1.2"),
            Self::BadHeaderSize => (4, "header size out of range"),
            Self::UnknownFormat => (5, "point format above 3"),
            Self::RecordTooShort => (6, "record length below the format's size"),
            Self::BadPointOffset => (7, "point offset out of range"),
            Self::RecordPastPoints => (8, "a record runs past the point offset"),
            Self::PointsPastEnd => (9, "the points run past the file's end"),
            Self::BadScaling => (10, "a scale or an offset out of range"),
            Self::NoSuchPoint => (11, "no such point"),
            Self::WrongPointLength => (12, "wrong length for a point"),
            Self::FieldTooLarge => (13, "field too large to encode"),
            Self::NoSuchRecord => (18, "no record at that index and position"),
            Self::WrongMark => (20, "sheet line with a wrong mark"),
            Self::UnknownKind => (21, "sheet line of an unknown kind"),
            Self::LineCut => (22, "sheet line cut short"),
            Self::ReversedRange => (23, "sheet line with its low above its high"),
            Self::TooManyLines => (24, "more than 64 sheet lines"),
            Self::OutputTooShort { .. } => (30, "output shorter than the released file"),
            Self::ListTooShort => (31, "list shorter than the kept records and points"),
            Self::NoDirectory => (40, "no GeoKey directory"),
            Self::BadDirectory => (41, "unsound GeoKey directory"),
            Self::NoSuchKey => (42, "key not in the directory"),
            Self::UnknownLocation => (43, "unknown key location"),
            Self::WrongCount => (44, "key count is not 1"),
            Self::NoParameters => (45, "parameter record absent"),
            Self::ValuePastParameters => (46, "value runs past its record"),
        }
    }
}

impl fmt::Display for Refusal {
    fn fmt(&self, f: &mut fmt::Formatter<'_>) -> fmt::Result {
        let (number, words) = self.number_and_words();
        write!(f, "refused {number}: {words}")
    }
}

impl Error for Refusal {}

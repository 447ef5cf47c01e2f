//! Refusals.

mod kind;

pub use kind::ErrorKind;

use crate::narrow;
use std::fmt;

/// A refusal: its number, and with 30 the length that the output needs.
///
/// `{:?}` shows the same words as `{}`, since a `main` that returns an error prints it so.
///
/// ```
/// let refused = korbishaf::check_file(b"LASF").unwrap_err();
/// assert_eq!(refused.number(), 1);
/// assert_eq!(refused.kind(), korbishaf::ErrorKind::File);
/// assert_eq!(refused.to_string(), "refused 1: fewer than 227 bytes");
/// assert_eq!(format!("{refused:?}"), "refused 1: fewer than 227 bytes");
/// ```
#[derive(Clone, Copy, PartialEq, Eq, Hash)]
pub struct Error {
    number: u64,
    needed: Option<usize>,
}

impl Error {
    /// The specification's number for it (docs/SPECIFICATION.md).
    #[must_use]
    pub fn number(&self) -> u64 {
        self.number
    }

    /// What it is about.
    #[must_use]
    pub fn kind(&self) -> ErrorKind {
        ErrorKind::of(self.number)
    }

    /// The length that the output needs, where the number is 30; otherwise none.
    #[must_use]
    pub fn needed(&self) -> Option<usize> {
        self.needed
    }

    /// What its number says, in words.
    #[must_use]
    pub fn words(&self) -> &'static str {
        refusal_words(self.number).unwrap_or("a number without words")
    }
}

impl fmt::Display for Error {
    fn fmt(&self, f: &mut fmt::Formatter<'_>) -> fmt::Result {
        write!(f, "refused {}: {}", self.number, self.words())?;
        match self.needed {
            Some(needed) => write!(f, " ({needed} bytes)"),
            None => Ok(()),
        }
    }
}

impl fmt::Debug for Error {
    fn fmt(&self, f: &mut fmt::Formatter<'_>) -> fmt::Result {
        fmt::Display::fmt(self, f)
    }
}

impl std::error::Error for Error {}

#[cfg(test)]
thread_local! {
    /// How many answers of the library this thread has looked at.
    pub(crate) static ANSWERS: std::cell::Cell<usize> = const { std::cell::Cell::new(0) };
}

/// Turns the number of an answer into a result.
pub(crate) fn passes(number: u64) -> Result<(), Error> {
    #[cfg(test)]
    ANSWERS.set(ANSWERS.get() + 1);
    match number {
        0 => Ok(()),
        _ => Err(Error {
            number,
            needed: None,
        }),
    }
}

/// The same for an answer that gives the needed length with 30.
pub(crate) fn passes_or_needs(number: u64, length: u64) -> Result<(), Error> {
    match number {
        30 => Err(Error {
            number,
            needed: Some(narrow(length)),
        }),
        _ => passes(number),
    }
}

/// What the number of a refusal says, in words; none for a number that the specification does not have.
///
/// ```
/// assert_eq!(korbishaf::refusal_words(1), Some("fewer than 227 bytes"));
/// assert_eq!(korbishaf::refusal_words(0), None);
/// ```
#[must_use]
pub fn refusal_words(number: u64) -> Option<&'static str> {
    Some(match number {
        1 => "fewer than 227 bytes",
        2 => "signature is not \"LASF\"",
        3 => "version is not 1.2",
        4 => "header size below 227 or above the file's length",
        5 => "point format above 3",
        6 => "record length below the format's size",
        7 => "point offset below the header size or above the file's length",
        8 => "a counted variable length record runs past the point offset",
        9 => "the points run past the file's end",
        10 => "a scale is not from 2^-40 to 2^20, or an offset not from -2^40 to 2^40",
        11 => "point index is not below the number of points",
        12 => {
            "point bytes or room differ from the record length, that length is below the format's size, \
               or the format is above 3"
        }
        13 => "a return number, a number of returns or a class is too large to encode",
        18 => {
            "index is not below the number of records, position is below the header size, \
               or a record there would run past the point offset"
        }
        20 => "a line of the sheet has a wrong mark",
        21 => "a line of the sheet is of an unknown kind",
        22 => "a line of the sheet is cut short",
        23 => {
            "a line of the sheet has its lowest class above its highest, or a low value of its box above the high one"
        }
        24 => "a 65th line of the sheet begins",
        30 => "the output is shorter than the released file",
        31 => "the list is shorter than the kept records and points together",
        40 => "there is no GeoKey directory",
        41 => "the GeoKey directory is too short or does not begin 1, 1, 0",
        42 => "the key is not found in the GeoKey directory",
        43 => "the key's location is not 0, 34736 or 34737",
        44 => "a short or a double has a count other than 1",
        45 => "the parameter record that the key's location names is absent",
        46 => "the key's value runs past its parameter record",
        50 => "a file is over 32,768 bytes",
        51 => "a file was not opened, read or written",
        _ => return None,
    })
}

#[cfg(test)]
mod tests {
    use super::*;
    use std::collections::HashSet;

    /// The numbers of the specification.
    const NUMBERS: [u64; 30] = [
        1, 2, 3, 4, 5, 6, 7, 8, 9, 10, 11, 12, 13, 18, 20, 21, 22, 23, 24, 30, 31, 40, 41, 42, 43,
        44, 45, 46, 50, 51,
    ];

    #[test]
    fn every_number_has_words_of_its_own() {
        let texts: HashSet<_> = NUMBERS
            .iter()
            .filter_map(|&number| refusal_words(number))
            .collect();
        assert_eq!(texts.len(), NUMBERS.len());
    }

    #[test]
    fn no_other_number_has_words() {
        for number in (0..1000)
            .chain([u64::MAX])
            .filter(|number| !NUMBERS.contains(number))
        {
            assert_eq!(refusal_words(number), None, "{number}");
        }
    }

    #[test]
    fn words_are_one_line_each() {
        for number in NUMBERS {
            let text = refusal_words(number).unwrap();
            assert!(
                !text.is_empty() && !text.contains('\n') && !text.contains("  "),
                "{number}: {text}"
            );
        }
    }

    #[test]
    fn display_has_number_words_and_needed_length() {
        assert_eq!(
            passes(3).unwrap_err().to_string(),
            "refused 3: version is not 1.2"
        );
        let short = passes_or_needs(30, 255).unwrap_err();
        assert_eq!(
            short.to_string(),
            "refused 30: the output is shorter than the released file (255 bytes)"
        );
        assert_eq!(
            passes(99).unwrap_err().to_string(),
            "refused 99: a number without words"
        );
    }

    #[test]
    fn debug_shows_the_words_of_display() {
        for number in NUMBERS {
            let refused = passes_or_needs(number, 255).unwrap_err();
            assert_eq!(format!("{refused:?}"), refused.to_string());
        }
    }

    #[test]
    fn kinds_follow_the_groups_of_numbers() {
        use ErrorKind::*;
        let groups = [
            (1..=10, File),
            (11..=13, Point),
            (18..=18, Record),
            (20..=24, Sheet),
            (30..=30, OutputTooShort),
            (31..=31, ListTooShort),
            (40..=46, GeoKey),
            (50..=51, Program),
        ];
        for number in (1..1000).chain([u64::MAX]) {
            let wanted = groups.iter().find(|(group, _)| group.contains(&number));
            let wanted = wanted.map_or(Unknown, |(_, kind)| *kind);
            assert_eq!(passes(number).unwrap_err().kind(), wanted, "{number}");
            assert_eq!(NUMBERS.contains(&number), wanted != Unknown, "{number}");
        }
    }

    #[test]
    fn only_30_has_a_needed_length() {
        assert_eq!(passes_or_needs(30, 255).unwrap_err().needed(), Some(255));
        for number in NUMBERS.into_iter().filter(|&number| number != 30) {
            let refused = passes_or_needs(number, 255).unwrap_err();
            assert_eq!((refused.number(), refused.needed()), (number, None));
        }
    }

    #[test]
    fn zero_is_no_error() {
        assert_eq!(passes(0), Ok(()));
        assert_eq!(passes_or_needs(0, 255), Ok(()));
    }

    #[test]
    fn is_an_error() {
        let boxed: Box<dyn std::error::Error + Send + Sync> = Box::new(passes(1).unwrap_err());
        assert_eq!(boxed.to_string(), "refused 1: fewer than 227 bytes");
    }
}

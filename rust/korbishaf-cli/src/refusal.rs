//! What a refusal is about: the values that the number speaks of.
//!
//! The library has refused already, and these values only go with its words. They are read out of files that do not
//! pass, so each is an `Option`: what is not there is not said.

mod sheet;

use crate::keep_sheet::KeepSheet;
use crate::layout::{
    Field, HEADER_SIZE, MAJOR_VERSION, MINOR_VERSION, OFFSETS, POINT_COUNT, POINT_FORMAT,
    POINT_OFFSET, POINT_SIZES, RECORD_COUNT, RECORD_HEADER, RECORD_LENGTH, SCALES, number_at,
};
use crate::shown;
use korbishaf::{Error, ErrorKind};

/// What a release of a file of that name under a sheet refuses, whichever of the two it is.
pub fn of(name: &str, file: &[u8], sheet: &KeepSheet, refused: &Error) -> String {
    match refused.kind() {
        ErrorKind::Sheet => of_sheet(&sheet.name, &sheet.bytes, refused),
        _ => of_file(name, file, refused),
    }
}

/// A refused file: `in.las: refused 3: version is not 1.2 (version 1.4)`.
pub fn of_file(name: &str, file: &[u8], refused: &Error) -> String {
    say(name, refused, about_file(file, refused.number()))
}

/// The same without name and number.
pub fn words(file: &[u8], refused: &Error) -> String {
    with(refused.words(), about_file(file, refused.number()))
}

/// A refused sheet: `sheet.bin: refused 21: a line of the sheet is of an unknown kind (line 1 at byte 0: kind 7)`.
pub fn of_sheet(name: &str, sheet: &[u8], refused: &Error) -> String {
    say(name, refused, sheet::about(sheet, refused.number()))
}

fn say(name: &str, refused: &Error, about: Option<String>) -> String {
    format!("{name}: {}", with(&refused.to_string(), about))
}

/// Words, and behind them what they are about, if that is known.
fn with(words: &str, about: Option<String>) -> String {
    match about {
        Some(about) => format!("{words} ({about})"),
        None => words.into(),
    }
}

/// What a file's number speaks of.
fn about_file(file: &[u8], number: u64) -> Option<String> {
    let field = |field: Field| field.bits(file);
    let length = file.len();
    Some(match number {
        1 => format!("length {length}"),
        2 => format!("it begins with \"{}\"", shown::text(file.get(..4)?)),
        3 => format!(
            "version {}.{}",
            field(MAJOR_VERSION)?,
            field(MINOR_VERSION)?
        ),
        4 => format!("header size {}, length {length}", field(HEADER_SIZE)?),
        5 => format!("format {}", field(POINT_FORMAT)?),
        6 => {
            let (format, record_length) = (field(POINT_FORMAT)?, field(RECORD_LENGTH)?);
            let size = POINT_SIZES.get(usize::try_from(format).ok()?)?;
            format!("record length {record_length}, format {format} has {size}")
        }
        7 => match (field(POINT_OFFSET)?, field(HEADER_SIZE)?) {
            (offset, header_size) if offset < header_size => {
                format!("offset {offset}, header size {header_size}")
            }
            (offset, _) => format!("offset {offset}, length {length}"),
        },
        8 => about_record(file)?,
        9 => {
            let (points, record_length) = (field(POINT_COUNT)?, field(RECORD_LENGTH)?);
            let offset = field(POINT_OFFSET)?;
            let end = offset + points * record_length;
            format!(
                "{points} points of {record_length} bytes from {offset} end at {end}, length {length}"
            )
        }
        10 => about_scaling(file)?,
        _ => return None,
    })
}

/// The first record that runs past the offset.
fn about_record(file: &[u8]) -> Option<String> {
    let (offset, count) = (POINT_OFFSET.bits(file)?, RECORD_COUNT.bits(file)?);
    let offset = usize::try_from(offset).ok()?;
    let mut at = usize::try_from(HEADER_SIZE.bits(file)?).ok()?;
    for index in 1..=count {
        let header_end = at + RECORD_HEADER;
        if header_end > offset {
            return Some(format!(
                "record {index} of {count}, from {at} to {header_end} or more, offset {offset}"
            ));
        }
        let end = header_end + usize::try_from(number_at(file, at + 20, 2)?).ok()?;
        if end > offset {
            return Some(format!(
                "record {index} of {count}, from {at} to {end}, offset {offset}"
            ));
        }
        at = end;
    }
    None
}

/// The first scale or offset that is out of range.
fn about_scaling(file: &[u8]) -> Option<String> {
    let (smallest, largest, far) = (2f64.powi(-40), 2f64.powi(20), 2f64.powi(40));
    let scales = SCALES.iter().map(|field| (field, smallest..=largest));
    let offsets = OFFSETS.iter().map(|field| (field, -far..=far));
    scales.chain(offsets).find_map(|(field, range)| {
        let double = f64::from_bits(field.bits(file)?);
        (!range.contains(&double)).then(|| format!("{} {double:?}", field.name))
    })
}

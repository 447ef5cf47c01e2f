//! Names of records, as they are looked up.

use korbishaf::{Line, Record};

/// A record ID, and a user ID with zeros behind it: a user ID itself has none.
pub type Name = (u16, [u8; 16]);

/// The name of a record.
pub fn of(record: &Record<'_>) -> Name {
    exact(record.user_id, record.record_id)
}

/// The name that a line has, if it keeps records.
pub fn of_line(line: &Line) -> Option<Name> {
    match line {
        Line::Record { user_id, record_id } => Some(exact(user_id.as_bytes(), *record_id)),
        _ => None,
    }
}

fn exact(user_id: &[u8], record_id: u16) -> Name {
    let mut field = [0; 16];
    for (byte, letter) in field.iter_mut().zip(user_id) {
        *byte = *letter;
    }
    (record_id, field)
}

/// The name with its user ID in small letters and without blanks.
pub fn plain((record_id, user_id): Name) -> Name {
    let letters = user_id
        .into_iter()
        .filter(|byte| !byte.is_ascii_whitespace());
    let mut field = [0; 16];
    for (byte, letter) in field.iter_mut().zip(letters) {
        *byte = letter.to_ascii_lowercase();
    }
    (record_id, field)
}

//! Findings in the records.

use super::super::records::{self, Placed};
use super::tail::{self, TextField};
use super::{Finding, What, all_zero};
use crate::layout::Value;
use korbishaf::{Header, Record, Sheet, record_kept};

/// How many findings in records are listed. A file can have millions, which nobody would read.
const MOST: usize = 32;

/// The findings, and the place where the records end.
pub fn find(file: &[u8], header: &Header<'_>, sheet: &Sheet) -> (Vec<Finding>, usize) {
    let mut found = Vec::new();
    let mut end = usize::from(header.header_size);
    let mut more = 0;
    let mut left_out = None;
    for record in records::placed(file) {
        end = record.end();
        for finding in in_record(file, &record, sheet) {
            if found.len() < MOST {
                found.push(finding);
            } else {
                left_out.get_or_insert(finding.place);
                more += 1;
            }
        }
    }
    if let Some(place) = left_out {
        found.push(Finding {
            place,
            length: end.saturating_sub(place),
            what: What::MoreInRecords { count: more },
        });
    }
    (found, end)
}

/// A record that is not kept is one finding; of one that is kept, what a release does not copy.
fn in_record(file: &[u8], placed: &Placed<'_>, sheet: &Sheet) -> Vec<Finding> {
    let Record {
        user_id,
        record_id,
        description,
        ..
    } = placed.record;
    if !record_kept(sheet, user_id, record_id) {
        return vec![Finding {
            place: placed.place,
            length: placed.length(),
            what: What::RecordNotKept {
                record: placed.name.clone(),
            },
        }];
    }
    let in_fields = [
        reserved(file, placed),
        behind_text(file, placed, ("user ID", 2, 16), user_id),
        behind_text(file, placed, ("description", 22, 32), description),
    ];
    in_fields.into_iter().flatten().collect()
}

/// Reserved bytes that are not zero.
fn reserved(file: &[u8], placed: &Placed<'_>) -> Option<Finding> {
    let bytes = field(file, placed, 0, 2).filter(|bytes| !all_zero(bytes))?;
    Some(Finding {
        place: placed.place,
        length: bytes.len(),
        what: What::Reserved {
            record: placed.name.clone(),
            bytes: Value::Bytes(bytes.to_vec()),
        },
    })
}

/// What stands behind the text of a field, of that name, place in the record and width.
fn behind_text(
    file: &[u8],
    placed: &Placed<'_>,
    (name, at, width): (&'static str, usize, usize),
    text: &[u8],
) -> Option<Finding> {
    let field = TextField {
        name,
        place: placed.place + at,
        bytes: field(file, placed, at, width)?,
        text,
    };
    tail::find(&field, Some(&placed.name))
}

/// The bytes of a field of a record.
fn field<'a>(file: &'a [u8], placed: &Placed<'_>, at: usize, width: usize) -> Option<&'a [u8]> {
    file.get(placed.place..)?.get(at..)?.get(..width)
}

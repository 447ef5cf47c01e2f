//! Findings in the header: behind its texts, and behind its 227 bytes.

use super::tail::{self, TextField};
use super::{Finding, What, all_zero};
use crate::layout::{GENERATING_SOFTWARE, HEADER, SYSTEM_IDENTIFIER};
use korbishaf::Header;

pub fn find(file: &[u8], header: &Header<'_>) -> Vec<Finding> {
    let texts = [
        (SYSTEM_IDENTIFIER, header.system_identifier),
        (GENERATING_SOFTWARE, header.generating_software),
    ];
    let tails = texts.into_iter().filter_map(|(field, text)| {
        let field = TextField {
            name: field.name,
            place: field.place,
            bytes: field.bytes(file)?,
            text,
        };
        tail::find(&field, None)
    });
    tails.chain(extra(file, header)).collect()
}

fn extra(file: &[u8], header: &Header<'_>) -> Option<Finding> {
    let extra = file.get(HEADER..header.header_size.into())?;
    (!extra.is_empty()).then(|| Finding {
        place: HEADER,
        length: extra.len(),
        what: What::ExtraHeader {
            all_zero: all_zero(extra),
        },
    })
}

//! Bytes of a text field behind the end of its text.

use super::super::records::Name;
use super::{Finding, What};

/// A text field, as a file has it.
pub struct TextField<'a> {
    pub name: &'static str,
    pub place: usize,
    pub bytes: &'a [u8],
    /// What the library takes for its text.
    pub text: &'a [u8],
}

/// The bytes behind a text's end, from the first to the last that is not zero; none where all are.
pub fn find(field: &TextField<'_>, record: Option<&Name>) -> Option<Finding> {
    let behind = field.bytes.get(field.text.len()..)?;
    let first = behind.iter().position(|&byte| byte != 0)?;
    let last = behind.iter().rposition(|&byte| byte != 0)?;
    let tail = behind.get(first..=last)?;
    Some(Finding {
        place: field.place + field.text.len() + first,
        length: tail.len(),
        what: What::TextTail {
            field: field.name,
            record: record.cloned(),
            text: tail.to_vec(),
        },
    })
}

#[cfg(test)]
mod tests {
    use super::*;

    fn found(bytes: &[u8], text: &[u8]) -> Option<(usize, usize)> {
        let field = TextField {
            name: "",
            place: 100,
            bytes,
            text,
        };
        find(&field, None).map(|finding| (finding.place, finding.length))
    }

    #[test]
    fn only_what_is_behind_the_text_counts() {
        for (clean, text) in [
            (&b""[..], &b""[..]),
            (b"\0", b""),
            (b"ab", b"ab"),
            (b" a b\0\0", b" a b"),
            (b"\0\0", b""),
        ] {
            assert_eq!(found(clean, text), None);
        }
        assert_eq!(found(b"ab\0c", b"ab"), Some((103, 1)));
        assert_eq!(found(b"a\0\0bc\0d\0\0", b"a"), Some((103, 4)));
        assert_eq!(found(b"\0\xFF", b""), Some((101, 1)));
    }

    #[test]
    fn spaces_behind_the_text_count() {
        assert_eq!(found(b"ab  \0\0", b"ab"), Some((102, 2)));
        assert_eq!(found(b"AB  \0 x", b"AB"), Some((102, 5)));
        assert_eq!(found(b"    ", b""), Some((100, 4)));
    }
}

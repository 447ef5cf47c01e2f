//! Names and texts of files, as they may be shown on a terminal, and numbers of things.

use std::ffi::OsStr;
use std::fmt::Write;
use std::os::unix::ffi::OsStrExt;

/// Bytes of a file as a person can read them: ASCII that is printable stays, a backslash is doubled, and all other
/// bytes stand as `\xNN`. So no text of a file can move a terminal's cursor, and no two texts look the same.
pub fn text(bytes: &[u8]) -> String {
    let mut shown = String::new();
    for &byte in bytes {
        push(&mut shown, byte);
    }
    shown
}

/// The name of a file: as [`text`], but letters and digits beyond ASCII stay too.
pub fn name(name: &OsStr) -> String {
    let mut shown = String::new();
    for chunk in name.as_bytes().utf8_chunks() {
        for letter in chunk.valid().chars() {
            if letter.is_alphanumeric() {
                shown.push(letter);
            } else {
                let mut bytes = [0; 4];
                letter
                    .encode_utf8(&mut bytes)
                    .bytes()
                    .for_each(|byte| push(&mut shown, byte));
            }
        }
        chunk
            .invalid()
            .iter()
            .for_each(|&byte| push(&mut shown, byte));
    }
    shown
}

/// A number of things, as in `1 point` or `2 points`.
pub fn counted<N: TryInto<u64>>(count: N, what: &str) -> String {
    match count.try_into().unwrap_or(u64::MAX) {
        1 => format!("1 {what}"),
        count => format!("{count} {what}s"),
    }
}

fn push(shown: &mut String, byte: u8) {
    match byte {
        b'\\' => shown.push_str("\\\\"),
        b' '..=b'~' => shown.push(char::from(byte)),
        _ => write!(shown, "\\x{byte:02X}").expect("a string takes all that is written to it"),
    }
}

#[cfg(test)]
mod tests {
    use super::*;

    #[test]
    fn text_is_printable_ascii() {
        assert_eq!(text(b"a b~"), "a b~");
        assert_eq!(text(b"\x1B[2J\\\xFC\n"), "\\x1B[2J\\\\\\xFC\\x0A");
        let all: Vec<u8> = (0..=255).collect();
        assert!(text(&all).bytes().all(|byte| (b' '..=b'~').contains(&byte)));
    }

    #[test]
    fn one_thing_is_counted_without_an_s() {
        assert_eq!(counted(0, "byte"), "0 bytes");
        assert_eq!(counted(1u64, "byte"), "1 byte");
        assert_eq!(counted(2usize, "byte"), "2 bytes");
    }

    #[test]
    fn names_keep_letters() {
        assert_eq!(name(OsStr::new("H\u{fc}gel 2.las")), "H\u{fc}gel 2.las");
        assert_eq!(name(OsStr::from_bytes(b"\xFC\n.las")), "\\xFC\\x0A.las");
        assert_eq!(name(OsStr::new("a\u{202e}b")), "a\\xE2\\x80\\xAEb");
    }
}

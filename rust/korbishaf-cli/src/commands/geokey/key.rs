//! The key that is asked for.

use crate::facts::geokeys::{key_named, name_with};
use crate::shown;
use std::ffi::OsStr;

/// The key that a word stands for, by its number or its name; otherwise what is wrong, in words.
pub fn read(word: &OsStr) -> Result<u16, String> {
    let text = word.to_str().unwrap_or_default();
    number(text).or_else(|| key_named(text)).ok_or_else(|| {
        let meant = name_with(text).map(|name| format!("; did you mean '{name}'?"));
        format!(
            "expected a key from 0 to 65535 or a key's name, found '{}'{}",
            shown::name(word),
            meant.unwrap_or_default()
        )
    })
}

/// The number that these digits write. A sign is no digit, though the library of Rust takes one.
fn number(digits: &str) -> Option<u16> {
    let all_digits = digits.bytes().all(|byte| byte.is_ascii_digit());
    digits.parse().ok().filter(|_| all_digits)
}

#[cfg(test)]
mod tests {
    use super::*;
    use std::os::unix::ffi::OsStrExt;

    #[test]
    fn a_key_has_a_number_or_a_name() {
        for (word, key) in [
            ("0", 0),
            ("65535", 65535),
            ("01024", 1024),
            ("GTModelTypeGeoKey", 1024),
            ("verticalUNITSgeokey", 4099),
        ] {
            assert_eq!(read(OsStr::new(word)), Ok(key));
        }
    }

    #[test]
    fn what_is_no_key_is_said() {
        let expected = "expected a key from 0 to 65535 or a key's name, found";
        for (word, found) in [
            (&b""[..], "''"),
            (b"65536", "'65536'"),
            (b"+1", "'+1'"),
            (b"-1", "'-1'"),
            (b"1024.0", "'1024.0'"),
            (b"\xFC", "'\\xFC'"),
            (b"Citation", "'Citation'"),
            (b"gtmodel", "'gtmodel'; did you mean 'GTModelTypeGeoKey'?"),
        ] {
            let wanted = Err(format!("{expected} {found}"));
            assert_eq!(read(OsStr::from_bytes(word)), wanted);
        }
    }
}

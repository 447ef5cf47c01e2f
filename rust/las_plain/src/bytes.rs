//! Little-endian numbers at a place, and text fields.

/// The `N` bytes at `at`.
fn array_at<const N: usize>(bytes: &[u8], at: usize) -> [u8; N] {
    let mut array = [0; N];
    array.copy_from_slice(&bytes[at..at + N]);
    array
}

/// The unsigned 16-bit number at `at`.
pub fn u16_at(bytes: &[u8], at: usize) -> u16 {
    u16::from_le_bytes(array_at(bytes, at))
}

/// The unsigned 32-bit number at `at`.
pub fn u32_at(bytes: &[u8], at: usize) -> u32 {
    u32::from_le_bytes(array_at(bytes, at))
}

/// The signed 32-bit number at `at`.
pub fn i32_at(bytes: &[u8], at: usize) -> i32 {
    i32::from_le_bytes(array_at(bytes, at))
}

/// The 64 bits at `at`.
pub fn u64_at(bytes: &[u8], at: usize) -> u64 {
    u64::from_le_bytes(array_at(bytes, at))
}

/// The double at `at`.
pub fn f64_at(bytes: &[u8], at: usize) -> f64 {
    f64::from_bits(u64_at(bytes, at))
}

/// Writes `part` over the bytes that start at `at`.
pub fn put(bytes: &mut [u8], at: usize, part: &[u8]) {
    bytes[at..at + part.len()].copy_from_slice(part);
}

/// What a text field means: its bytes before the first zero, or all of them, without the spaces that these end with.
/// A space is the byte 0x20; no other white space goes.
pub fn cut(text: &[u8]) -> &[u8] {
    let zero = text.iter().position(|&byte| byte == 0);
    let before_zero = &text[..zero.unwrap_or(text.len())];
    let last = before_zero.iter().rposition(|&byte| byte != b' ');
    &before_zero[..last.map_or(0, |last| last + 1)]
}

#[cfg(test)]
mod tests {
    use super::*;

    #[test]
    fn numbers_are_little_endian_and_twos_complement() {
        let bytes = [0x2C, 0x01, 0, 0, 0, 0x80];
        assert_eq!(u16_at(&bytes, 0), 300);
        assert_eq!(u32_at(&bytes, 2), 0x8000_0000);
        assert_eq!(i32_at(&bytes, 2), i32::MIN);
    }

    #[test]
    fn a_text_ends_before_its_first_zero() {
        assert_eq!(cut(b"ab\0cd\0"), b"ab");
        assert_eq!(cut(b"abcd"), b"abcd");
        assert_eq!(cut(b"\0abc"), b"");
        assert_eq!(cut(b""), b"");
    }

    #[test]
    fn spaces_at_the_end_go_after_the_cut_at_the_zero() {
        assert_eq!(cut(b"AB  \0 x"), b"AB");
        assert_eq!(cut(b"AB\0  "), b"AB");
        assert_eq!(cut(b"AB  "), b"AB");
        assert_eq!(cut(b"fifteen letters "), b"fifteen letters");
        for spaces in [b" ".as_slice(), b"   ", &[b' '; 300], b"  \0x", b"\0  "] {
            assert_eq!(cut(spaces), b"", "{spaces:?}");
        }
    }

    #[test]
    fn spaces_in_front_and_within_stay() {
        assert_eq!(cut(b" A"), b" A");
        assert_eq!(cut(b"A B "), b"A B");
        assert_eq!(cut(b"  A  B  \0"), b"  A  B");
        assert_eq!(cut(b"               A"), b"               A");
    }

    #[test]
    fn no_byte_but_zero_and_space_ends_a_text() {
        for byte in (1..=255).filter(|&byte| byte != b' ') {
            assert_eq!(cut(&[b'A', byte, b' ']), [b'A', byte]);
            assert_eq!(cut(&[b'A', b' ', byte]), [b'A', b' ', byte]);
            assert_eq!(cut(&[byte]), [byte]);
        }
    }
}

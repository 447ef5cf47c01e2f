//! Text fields.

/// A text field's meaning: its bytes before the first zero byte, or all of them, without the spaces at their end.
pub fn cut(field: &[u8]) -> &[u8] {
    let zero = field.iter().position(|&byte| byte == 0);
    let text = &field[..zero.unwrap_or(field.len())];
    let last = text.iter().rposition(|&byte| byte != b' ');
    &text[..last.map_or(0, |last| last + 1)]
}

#[cfg(test)]
mod tests {
    use super::cut;

    #[test]
    fn texts_are_cut_at_a_zero_and_then_before_spaces() {
        for (field, text) in [
            (&b""[..], &b""[..]),
            (b"AB", b"AB"),
            (b"AB\0 x", b"AB"),
            (b"AB  \0 x", b"AB"),
            (b"A B ", b"A B"),
            (b" A", b" A"),
            (b"    ", b""),
            (b"\0A", b""),
            (b" \0A", b""),
            (b"A\t ", b"A\t"),
            (b"A \t", b"A \t"),
            (b"A\xA0", b"A\xA0"),
        ] {
            assert_eq!(cut(field), text, "{}", field.escape_ascii());
        }
    }
}

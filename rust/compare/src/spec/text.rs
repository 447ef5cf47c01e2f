//! Text fields with and without odd tails.

use crate::rng::Rng;

/// User IDs that files and sheets are made with, each of them cut; they differ in length, in their last byte and in
/// spaces in front and within, and one fills its field.
pub const USER_IDS: [&[u8]; 11] = [
    b"",
    b"LASF_Projection",
    b"LASF_Projectio",
    b"LASF_Spec",
    b"user",
    b"users",
    b" user",
    b"us er",
    b"user\t",
    b"sixteen letters!",
    b"\xFF\x80\x01",
];

/// The text's bytes before its first zero, or all of them, less the spaces that these end with.
pub fn cut(text: &[u8]) -> &[u8] {
    let mut cut = text.split(|&byte| byte == 0).next().unwrap_or(text);
    while let Some(shorter) = cut.strip_suffix(b" ") {
        cut = shorter;
    }
    cut
}

/// The text in a field of `N` bytes, with zeros behind it.
pub fn padded<const N: usize>(text: &[u8]) -> [u8; N] {
    let mut field = [0; N];
    field[..text.len()].copy_from_slice(text);
    field
}

/// The same cut text with spaces behind it, often none and often up to the field's end; then a zero and any bytes.
pub fn with_tail<const N: usize>(rng: &mut Rng, text: &[u8]) -> [u8; N] {
    let text = cut(text);
    let mut field: [u8; N] = padded(text);
    let zero = text.len() + random_spaces(rng, N - text.len());
    field[text.len()..zero].fill(b' ');
    if zero < N {
        field[zero + 1..].fill_with(|| random_byte(rng));
    }
    field
}

/// How many spaces stand in a room of so many bytes.
fn random_spaces(rng: &mut Rng, room: usize) -> usize {
    match rng.below(4) {
        0 => room,
        1 => rng.from_to(0, room),
        _ => 0,
    }
}

/// Any byte; spaces are frequent.
fn random_byte(rng: &mut Rng) -> u8 {
    if rng.chance(20) { b' ' } else { rng.byte() }
}

/// A text of any length in a field of `N` bytes, half of them with an odd tail; spaces are frequent in it, and zeros
/// stand behind some that end with spaces.
pub fn random_text<const N: usize>(rng: &mut Rng) -> [u8; N] {
    let length = if rng.chance(15) { N } else { rng.below(N) };
    let text: Vec<u8> = (0..length).map(|_| random_byte(rng).max(1)).collect();
    if rng.chance(50) {
        with_tail(rng, &text)
    } else {
        padded(&text)
    }
}

#[cfg(test)]
mod tests {
    use super::*;
    use crate::rng::FIXED_SEED;

    #[test]
    fn a_text_is_cut_at_its_zero_and_then_loses_the_spaces_at_its_end() {
        assert_eq!(cut(b"AB  \0 x"), b"AB");
        assert_eq!(cut(b"A B "), b"A B");
        assert_eq!(cut(b" A"), b" A");
        assert_eq!(cut(b"A\t "), b"A\t");
        assert_eq!(cut(&[b' '; 16]), b"");
    }

    #[test]
    fn user_ids_are_cut_and_differ() {
        for (index, name) in USER_IDS.iter().enumerate() {
            assert_eq!(cut(name), *name);
            assert!(!USER_IDS[..index].contains(name));
        }
    }

    #[test]
    fn tails_keep_the_cut_text_and_are_of_every_kind() {
        let mut rng = Rng::new(FIXED_SEED);
        let fields: Vec<[u8; 6]> = (0..1000).map(|_| with_tail(&mut rng, b"AB ")).collect();
        assert!(fields.iter().all(|field| cut(field) == b"AB"));
        let begins = |with: &[u8]| fields.iter().any(|field| field.starts_with(with));
        for kind in [
            b"AB\0".as_slice(),
            b"AB \0",
            b"AB   \0",
            b"AB    ",
            b"AB\0 ",
        ] {
            assert!(begins(kind), "{kind:?}");
        }
    }

    #[test]
    fn random_texts_have_spaces_in_front_within_at_the_end_and_behind_zeros() {
        let mut rng = Rng::new(FIXED_SEED);
        let fields: Vec<[u8; 16]> = (0..1000).map(|_| random_text(&mut rng)).collect();
        let kinds: [fn(&[u8]) -> bool; 5] = [
            |field| cut(field).starts_with(b" "),
            |field| cut(field).trim_ascii_start().contains(&b' '),
            |field| field[cut(field).len()..].starts_with(b" "),
            |field| field[cut(field).len()..].starts_with(b"\0 "),
            |field| cut(field).is_empty() && field[0] == b' ',
        ];
        for (index, kind) in kinds.iter().enumerate() {
            let found = fields.iter().filter(|field| kind(*field)).count();
            assert!(found > 10, "kind {index} stands in {found} fields");
        }
    }
}

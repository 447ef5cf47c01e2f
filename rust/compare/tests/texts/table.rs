//! Text fields, each with its cut text.

/// A field of `N` bytes.
#[derive(Debug, Clone)]
pub struct Case<const N: usize> {
    pub field: [u8; N],
    pub cut: Vec<u8>,
}

/// What stands at a field's front, and the cut text; spaces, or a zero and anything, may stand behind.
const FRONTS: [(&[u8], &[u8]); 22] = [
    (b"", b""),
    (b" ", b""),
    (b"   ", b""),
    (b"\0", b""),
    (b"\0 ", b""),
    (b" \0 x", b""),
    (b"\0x ", b""),
    (b"A", b"A"),
    (b"A \0B", b"A"),
    (b"AB", b"AB"),
    (b"AB ", b"AB"),
    (b"AB\0", b"AB"),
    (b"AB\0 ", b"AB"),
    (b"AB \0", b"AB"),
    (b"AB  \0 x", b"AB"),
    (b"A B", b"A B"),
    (b"A B ", b"A B"),
    (b"A B \0 C", b"A B"),
    (b"A  B", b"A  B"),
    (b" A", b" A"),
    (b" A ", b" A"),
    (b"  AB", b"  AB"),
];

/// Tab, line feed, vertical tab, form feed, carriage return, no-break space, the bytes beside the space, delete.
const NOT_SPACES: [u8; 9] = [0x09, 0x0A, 0x0B, 0x0C, 0x0D, 0xA0, 0x1F, 0x21, 0x7F];

const LETTERS: &[u8; 32] = b"ABCDEFGHIJKLMNOPQRSTUVWXYZabcdef";
const SPACES: &[u8; 32] = &[b' '; 32];

/// The cases that are told apart pair by pair: all but most of those of [`every_byte`].
pub fn few<const N: usize>() -> Vec<Case<N>> {
    let mut cases = with_fillings();
    cases.extend(up_to_the_end());
    cases.extend(NOT_SPACES.iter().flat_map(|&byte| with_byte(byte)));
    cases
}

/// All cases.
pub fn all<const N: usize>() -> Vec<Case<N>> {
    let mut cases = with_fillings();
    cases.extend(up_to_the_end());
    cases.extend(every_byte());
    cases
}

/// Each front with fewer and more spaces behind it, up to the end; where they end before, a zero and one other byte.
fn with_fillings<const N: usize>() -> Vec<Case<N>> {
    let mut cases = Vec::new();
    for (front, cut) in FRONTS {
        let room = N - front.len();
        for spaces in [0, 1, room / 2, room - 1, room] {
            for tail in [0, b' ', b'x'] {
                let mut field = [tail; N];
                field[..front.len()].copy_from_slice(front);
                field[front.len()..front.len() + spaces].fill(b' ');
                if spaces < room {
                    field[front.len() + spaces] = 0;
                }
                cases.push(case(field, cut));
            }
        }
    }
    cases
}

fn case<const N: usize>(field: [u8; N], cut: &[u8]) -> Case<N> {
    Case {
        field,
        cut: cut.to_vec(),
    }
}

/// Texts that end in the last bytes of the field: so many letters or spaces, then an end; and the cut text's length.
fn up_to_the_end<const N: usize>() -> Vec<Case<N>> {
    let ends: [(&[u8], &[u8], usize); 13] = [
        (LETTERS, b"", N),
        (LETTERS, b" ", N - 1),
        (LETTERS, b"\0", N - 1),
        (LETTERS, b"!", N),
        (LETTERS, b"\t", N),
        (LETTERS, b"  ", N - 2),
        (LETTERS, b" \0", N - 2),
        (LETTERS, b"\0 ", N - 2),
        (LETTERS, b"\0x", N - 2),
        (LETTERS, b" x", N),
        (SPACES, b"", 0),
        (SPACES, b"\0", 0),
        (SPACES, b"x", N),
    ];
    let cases = ends.map(|(front, end, length)| {
        let field = [&front[..N - end.len()], end].concat();
        case(field[..].try_into().unwrap(), &field[..length])
    });
    cases.into()
}

/// Every byte value as the last of a text, in several places.
fn every_byte<const N: usize>() -> Vec<Case<N>> {
    (0..=255).flat_map(with_byte).collect()
}

/// Texts with this byte behind a letter, a space, nothing and all the field, and a field of it alone.
fn with_byte<const N: usize>(byte: u8) -> Vec<Case<N>> {
    let counts = usize::from(byte != 0 && byte != b' ');
    let fronts: [(&[u8], usize); 5] = [
        (b"A", 1 + counts),
        (b"A ", 1 + 2 * counts),
        (b"", counts),
        (&LETTERS[..N - 1], N - 1 + counts),
        (&SPACES[..N - 1], N * counts),
    ];
    let mut cases: Vec<Case<N>> = Vec::new();
    for (front, length) in fronts {
        for filling in [0, b' '] {
            let mut field = [filling; N];
            field[..front.len()].copy_from_slice(front);
            field[front.len()] = byte;
            cases.push(case(field, &field[..length]));
        }
    }
    cases.push(case([byte; N], &[byte; N][..N * counts]));
    cases
}

#[test]
fn the_table_has_what_is_written_here() {
    let has = |field: &[u8; 16], cut: &[u8]| {
        let is_it = |case: &&Case<16>| case.field == *field;
        assert_eq!(few().iter().find(is_it).expect("a case").cut, cut);
    };
    has(b"AB  \0 x         ", b"AB");
    has(b"A B             ", b"A B");
    has(b"                ", b"");
    has(b"               x", b"               x");
    has(b"ABCDEFGHIJKLMNO ", b"ABCDEFGHIJKLMNO");
    has(b"ABCDEFGHIJKLMNOP", b"ABCDEFGHIJKLMNOP");
    has(b"A\t              ", b"A\t");
    has(b"\xA0               ", b"\xA0");
    has(b"A \x1F             ", b"A \x1F");
}

//! Values on both sides of 43 to 46, in each entry of directories of up to nine keys.

use compare::answers::GeoKeyRead;
use compare::compared::Compared;
use compare::spec::{RecordSpec, padded, projection};

use super::table::{
    DOUBLES, TEXTS, directory_of, entries, file_with, found, halved, refused, rising,
};

/// Every byte of a double that parameter records have here.
const ONES: u64 = 0x0101_0101_0101_0101;

/// What an entry gives.
#[derive(Clone, Copy)]
enum Given {
    Number(u64),
    Value(u16),
    Double(u64),
    /// The place in the record that is the file's second, and the length.
    Text(u16, u16),
}

impl Given {
    /// The answer after so many reads, in a file that begins with a directory of so many keys.
    fn answer(self, reads: usize, keys: usize) -> GeoKeyRead {
        let payload = 227 + (54 + 8 + 8 * keys) + 54;
        match self {
            Self::Number(number) => refused(number, reads),
            Self::Value(value) => found(value.into(), reads),
            Self::Double(bits) => GeoKeyRead {
                location: DOUBLES.into(),
                value: bits,
                ..refused(0, reads)
            },
            Self::Text(place, length) => GeoKeyRead {
                location: TEXTS.into(),
                length: length.into(),
                ..found(payload + usize::from(place), reads)
            },
        }
    }
}

/// Puts these fields (location, count, value offset) into each entry in turn and asks for its key, with these records
/// behind the directory.
fn assert_each(compared: &mut Compared, fields: [u16; 3], behind: &[RecordSpec], given: Given) {
    for count in 1..=9 {
        let keys = rising(100, 10, count);
        for (place, &key) in keys.iter().enumerate() {
            let mut all = entries(&keys);
            all[place][1..].copy_from_slice(&fields);
            let file = file_with([&[directory_of(&all)], behind].concat());
            let case = format!("{fields:?} at {place} of {count}");
            compared.case(&case);
            let (plain, halving) = compared.geokey_lookups(&file, key);
            let (at, reads) = halved(&keys, key);
            assert_eq!(at, Some(place), "{case}");
            assert_eq!(halving, given.answer(reads, count), "{case}");
            assert_eq!(halving.geokey(), plain, "{case}");
        }
    }
}

pub fn number_43(compared: &mut Compared) {
    let doubles = [projection(DOUBLES, vec![1; 8])];
    let texts = [projection(TEXTS, vec![1; 8])];
    for location in [
        1, 255, 256, 1968, 32768, 34480, 34735, 34738, 34767, 34992, 65535,
    ] {
        assert_each(compared, [location, 1, 0], &doubles, Given::Number(43));
    }
    assert_each(compared, [0, 1, 0], &doubles, Given::Value(0));
    assert_each(compared, [DOUBLES, 1, 0], &doubles, Given::Double(ONES));
    assert_each(compared, [TEXTS, 1, 0], &texts, Given::Text(0, 1));
}

pub fn number_44(compared: &mut Compared) {
    let doubles = [projection(DOUBLES, vec![1; 16])];
    let texts = [projection(TEXTS, vec![1; 8])];
    for count in [0, 2, 3, 256, 257, 32769, 65535] {
        assert_each(compared, [0, count, 9], &doubles, Given::Number(44));
        assert_each(compared, [DOUBLES, count, 0], &doubles, Given::Number(44));
    }
    assert_each(compared, [0, 1, 65535], &doubles, Given::Value(65535));
    assert_each(compared, [DOUBLES, 1, 1], &doubles, Given::Double(ONES));
    assert_each(compared, [TEXTS, 2, 0], &texts, Given::Text(0, 2));
}

pub fn number_45(compared: &mut Compared) {
    for (location, other, given) in [
        (DOUBLES, TEXTS, Given::Double(ONES)),
        (TEXTS, DOUBLES, Given::Text(0, 1)),
    ] {
        let fields = [location, 1, 0];
        let [own, other] = [location, other].map(|id| projection(id, vec![1; 8]));
        let user = padded(b"LASF_Projectio");
        let stranger = RecordSpec {
            user,
            ..own.clone()
        };
        assert_each(compared, fields, &[], Given::Number(45));
        assert_each(compared, fields, &[other], Given::Number(45));
        assert_each(compared, fields, &[stranger], Given::Number(45));
        assert_each(compared, fields, &[own], given);
    }
}

/// The length of a record, a double's offset, and whether it is whole there.
const DOUBLE_ENDS: [(usize, u16, bool); 9] = [
    (8, 0, true),
    (7, 0, false),
    (0, 0, false),
    (16, 1, true),
    (15, 1, false),
    (16, 2, false),
    (65535, 8190, true),
    (65535, 8191, false),
    (65535, 65535, false),
];

/// The length of a record, a text's offset and count, and whether it ends there.
const TEXT_ENDS: [(usize, u16, u16, bool); 12] = [
    (9, 4, 5, true),
    (9, 4, 6, false),
    (9, 9, 0, true),
    (9, 10, 0, false),
    (9, 0, 9, true),
    (9, 0, 10, false),
    (0, 0, 0, true),
    (0, 0, 1, false),
    (0, 1, 0, false),
    (65535, 65535, 0, true),
    (65535, 65535, 1, false),
    (65535, 1, 65535, false),
];

pub fn number_46(compared: &mut Compared) {
    for (length, offset, whole) in DOUBLE_ENDS {
        let doubles = [projection(DOUBLES, vec![1; length])];
        let past = Given::Number(46);
        let given = if whole { Given::Double(ONES) } else { past };
        assert_each(compared, [DOUBLES, 1, offset], &doubles, given);
    }
    for (length, offset, count, whole) in TEXT_ENDS {
        let texts = [projection(TEXTS, vec![b't'; length])];
        let (text, past) = (Given::Text(offset, count), Given::Number(46));
        let given = if whole { text } else { past };
        assert_each(compared, [TEXTS, count, offset], &texts, given);
    }
}

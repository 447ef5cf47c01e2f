//! The name of the GeoKeys' records, which is compared cut; their values are not texts that are cut.

use std::collections::BTreeMap;

use compare::answers::GeoKey;
use compare::compared::Compared;
use compare::spec::{FileSpec, RecordSpec, directory, padded, projection};

const KEY: u16 = 1024;
const DIRECTORY: u16 = 34735;
const DOUBLES: u16 = 34736;
const TEXTS: u16 = 34737;

const ZERO: &[u8; 16] = b"LASF_Projection\0";
const SPACE: &[u8; 16] = b"LASF_Projection ";

/// Names that are not that of the GeoKeys; its 15 letters leave room for one byte.
const OTHERS: [&[u8; 16]; 20] = [
    b"LASF_Projection\t",
    b"LASF_Projection\n",
    b"LASF_Projection\r",
    b"LASF_Projection\x0B",
    b"LASF_Projection\x0C",
    b"LASF_Projection\x1F",
    b"LASF_Projection!",
    b"LASF_Projection\x7F",
    b"LASF_Projection\xA0",
    b" LASF_Projection",
    b" LASF_Projectio\0",
    b" LASF_Projectio ",
    b"LASF_Projectio  ",
    b"LASF_Projectio\0 ",
    b"LASF_Projectio \0",
    b"LASF_Projectio n",
    b"LASF Projection ",
    b"                ",
    b"\0\0\0\0\0\0\0\0\0\0\0\0\0\0\0\0",
    b"sixteen letters!",
];

fn named(name: &[u8; 16], record: RecordSpec) -> RecordSpec {
    RecordSpec {
        user: *name,
        ..record
    }
}

/// A directory with the one entry for `KEY`.
fn one_entry(name: &[u8; 16], location: u16, count: u16, value: u16) -> RecordSpec {
    let payload = directory([1, 1, 0, 1], &[[KEY, location, count, value]]);
    named(name, projection(DIRECTORY, payload))
}

fn find(records: &[RecordSpec]) -> GeoKey {
    let spec = FileSpec {
        records: records.to_vec(),
        points: vec![vec![b' '; 20]],
        ..FileSpec::bare(0)
    };
    let names = records.iter().map(|record| record.user.escape_ascii());
    let names: Vec<String> = names.map(|name| name.to_string()).collect();
    Compared::new()
        .case(names.join(", "))
        .geokey_find(&spec.bytes(), KEY)
}

fn found(location: u64, value: u64, length: u64) -> GeoKey {
    GeoKey {
        number: 0,
        location,
        value,
        length,
    }
}

fn refused(number: u64) -> GeoKey {
    GeoKey {
        number,
        ..GeoKey::default()
    }
}

/// The right names and the others, each with whether it is right.
fn names() -> impl Iterator<Item = (&'static [u8; 16], bool)> {
    let right = [ZERO, SPACE].map(|name| (name, true));
    right.into_iter().chain(OTHERS.map(|name| (name, false)))
}

#[test]
fn a_directory_s_name_may_end_with_a_zero_or_a_space_and_nothing_else() {
    for (name, right) in names() {
        let due = if right { found(0, 9, 0) } else { refused(40) };
        assert_eq!(
            find(&[one_entry(name, 0, 1, 9)]),
            due,
            "{}",
            name.escape_ascii()
        );
    }
}

#[test]
fn directory_and_parameters_match_however_each_name_is_padded() {
    let double = projection(DOUBLES, 2.5f64.to_le_bytes());
    let text = projection(TEXTS, b"a text  ");
    // The text stands behind the header, the directory and its own header.
    let place = 227 + 70 + 54 + 2;
    let cases = [
        (DOUBLES, 1, 0, double, found(34736, 2.5f64.to_bits(), 0)),
        (TEXTS, 6, 2, text, found(34737, place, 6)),
    ];
    let mut reached = BTreeMap::new();
    for (location, count, value, parameters, answer) in cases {
        for (of_directory, first) in names() {
            for (of_parameters, second) in names() {
                let due = match (first, second) {
                    (true, true) => answer,
                    (true, false) => refused(45),
                    (false, _) => refused(40),
                };
                let entry = one_entry(of_directory, location, count, value);
                let records = [entry, named(of_parameters, parameters.clone())];
                let names = [of_directory, of_parameters].map(|name| name.escape_ascii());
                assert_eq!(find(&records), due, "{} and {}", names[0], names[1]);
                *reached.entry(due.number).or_insert(0) += 1;
            }
        }
    }
    let due = [(0, 2 * 2 * 2), (40, 2 * 20 * 22), (45, 2 * 2 * 20)];
    assert_eq!(reached, due.into());
}

#[test]
fn the_first_of_the_name_counts_however_it_is_padded() {
    for (first, second) in [(ZERO, SPACE), (SPACE, ZERO)] {
        let directories = [one_entry(first, 0, 1, 1), one_entry(second, 0, 1, 2)];
        assert_eq!(find(&directories), found(0, 1, 0));
        let parameters = |bits: u64, name| named(name, projection(DOUBLES, bits.to_le_bytes()));
        let records = [
            parameters(11, first),
            one_entry(second, DOUBLES, 1, 0),
            parameters(12, second),
        ];
        assert_eq!(find(&records), found(34736, 11, 0));
        for other in OTHERS {
            let records = [one_entry(other, 0, 1, 1), one_entry(second, 0, 1, 2)];
            assert_eq!(find(&records), found(0, 2, 0), "{}", other.escape_ascii());
            let records = [
                one_entry(first, DOUBLES, 1, 0),
                parameters(11, other),
                parameters(12, second),
            ];
            assert_eq!(
                find(&records),
                found(34736, 12, 0),
                "{}",
                other.escape_ascii()
            );
        }
    }
}

#[test]
fn values_keep_their_spaces_and_zeros() {
    for text in [b"AB  ".as_slice(), b"    ", b"AB\0 ", b"\0   "] {
        let records = [
            one_entry(SPACE, TEXTS, 4, 0),
            named(SPACE, projection(TEXTS, text)),
        ];
        assert_eq!(
            find(&records),
            found(34737, 227 + 70 + 54, 4),
            "{}",
            text.escape_ascii()
        );
    }
    let double = u64::from_le_bytes([b' '; 8]);
    let records = [
        one_entry(SPACE, DOUBLES, 1, 0),
        RecordSpec {
            user: padded(b"LASF_Projection"),
            ..projection(DOUBLES, [b' '; 8])
        },
    ];
    assert_eq!(find(&records), found(34736, double, 0));
}

//! GeoKeys by halving: answers and entries read, worked out by hand from the definition.

mod directory;

use directory::{DIRECTORY, DOUBLES, TEXTS, directory, file};
use korbishaf::{GeoKeyValue, geokey, geokey_by_halving};

/// A file whose directory has these keys, each with its place as its value.
fn file_of_keys(keys: &[u16]) -> Vec<u8> {
    let entries: Vec<_> = (0..).zip(keys).map(|(at, &key)| [key, 0, 1, at]).collect();
    file(&[directory(&entries)])
}

/// What a lookup by halving gives: the value or the number, and the entries read.
fn look(file: &[u8], key: u16) -> (Result<GeoKeyValue<'_>, u64>, u64) {
    let found = geokey_by_halving(file, key);
    (found.value.map_err(|refused| refused.number()), found.reads)
}

/// The place of the entry that is found, and the entries read; the number and the entries read where none is.
fn place(file: &[u8], key: u16) -> (Result<u16, u64>, u64) {
    match look(file, key) {
        (Ok(GeoKeyValue::Short(at)), reads) => (Ok(at), reads),
        (Ok(other), _) => panic!("{other:?} is no short"),
        (Err(number), reads) => (Err(number), reads),
    }
}

/// Asserts for each key of a directory of these which place is found, or that none is, and how many entries are read.
fn finds(keys: &[u16], answers: &[(u16, Result<u16, u64>, u64)]) {
    let file = file_of_keys(keys);
    for &(key, found, reads) in answers {
        assert_eq!(place(&file, key), (found, reads), "{key} in {keys:?}");
    }
}

#[test]
fn no_keys_are_missed_without_a_read() {
    finds(
        &[],
        &[(0, Err(42), 0), (1024, Err(42), 0), (65535, Err(42), 0)],
    );
}

#[test]
fn rising_keys_are_found() {
    finds(&[10], &[(10, Ok(0), 1), (9, Err(42), 1), (11, Err(42), 1)]);
    finds(
        &[10, 20],
        &[
            (10, Ok(0), 2),
            (20, Ok(1), 1),
            (5, Err(42), 2),
            (15, Err(42), 2),
            (25, Err(42), 1),
        ],
    );
    finds(
        &[0, 20, 65535],
        &[
            (0, Ok(0), 2),
            (20, Ok(1), 1),
            (65535, Ok(2), 2),
            (1, Err(42), 2),
            (65534, Err(42), 2),
        ],
    );
    finds(
        &[10, 20, 30, 40, 50, 60],
        &[
            (10, Ok(0), 3),
            (20, Ok(1), 2),
            (30, Ok(2), 3),
            (40, Ok(3), 1),
            (50, Ok(4), 3),
            (60, Ok(5), 2),
            (5, Err(42), 3),
            (45, Err(42), 3),
            (55, Err(42), 3),
            (65, Err(42), 2),
        ],
    );
}

/// The plain lookup finds all of these.
#[test]
fn keys_that_do_not_rise_may_be_missed() {
    finds(
        &[30, 20, 10],
        &[(30, Err(42), 2), (20, Ok(1), 1), (10, Err(42), 2)],
    );
    finds(
        &[50, 10, 90, 30, 95],
        &[
            (50, Err(42), 2),
            (10, Ok(1), 2),
            (90, Ok(2), 1),
            (30, Err(42), 2),
            (95, Ok(4), 2),
        ],
    );
    for (keys, key) in [(&[30, 20, 10][..], 30), (&[50, 10, 90, 30, 95], 50)] {
        let file = file_of_keys(keys);
        assert_eq!(geokey(&file, key), Ok(GeoKeyValue::Short(0)));
    }
}

/// The plain lookup finds the first.
#[test]
fn of_equal_keys_the_one_that_is_read_first_counts() {
    for (keys, found, reads) in [
        (&[7, 7][..], 1, 1),
        (&[7, 7, 7], 1, 1),
        (&[7, 7, 7, 7], 2, 1),
        (&[7, 7, 8, 9], 1, 2),
        (&[5, 6, 7, 7, 9, 9, 9, 9, 9], 2, 2),
    ] {
        finds(keys, &[(7, Ok(found), reads)]);
        let first = keys.iter().position(|&key| key == 7).unwrap() as u16;
        let file = file_of_keys(keys);
        assert_eq!(geokey(&file, 7), Ok(GeoKeyValue::Short(first)), "{keys:?}");
    }
}

#[test]
fn values_of_each_kind() {
    let keys = directory(&[
        [1024, 0, 1, 2],
        [1026, TEXTS, 4, 5],
        [1027, TEXTS, 0, 9],
        [2057, DOUBLES, 1, 1],
        [2058, DOUBLES, 1, 0],
    ]);
    let doubles = [f64::NAN, 6378137.5].map(f64::to_le_bytes).concat();
    let file = file(&[keys, (DOUBLES, doubles), (TEXTS, b"Name|T\0 x".to_vec())]);
    for (key, value, reads) in [
        (1024, GeoKeyValue::Short(2), 3),
        (1026, GeoKeyValue::Text(b"T\0 x"), 2),
        (1027, GeoKeyValue::Text(b""), 1),
        (2057, GeoKeyValue::Double(6378137.5), 3),
    ] {
        assert_eq!(look(&file, key), (Ok(value), reads), "{key}");
    }
    let (Ok(GeoKeyValue::Double(found)), reads) = look(&file, 2058) else {
        panic!("no double");
    };
    assert_eq!((found.to_bits(), reads), (f64::NAN.to_bits(), 2));
}

/// 43 to 46 at every place of a directory of four, and with 45 the record missing. The plain lookup gives the same.
#[test]
fn refusals_of_an_entry_come_with_the_entries_read() {
    for (fault, number) in [
        ([34767, 1, 0], 43),
        ([1, 1, 0], 43),
        ([0, 0, 5], 44),
        ([DOUBLES, 2, 0], 44),
        ([TEXTS, 1, 0], 45),
        ([DOUBLES, 1, 1], 46),
    ] {
        for (at, reads) in [(0, 3), (1, 2), (2, 1), (3, 2)] {
            let mut entries = [[10, 0, 1, 0], [20, 0, 1, 1], [30, 0, 1, 2], [40, 0, 1, 3]];
            entries[at][1..].copy_from_slice(&fault);
            let file = file(&[directory(&entries), (DOUBLES, vec![0; 15])]);
            let key = entries[at][0];
            assert_eq!(look(&file, key), (Err(number), reads), "{key}");
            assert_eq!(geokey(&file, key).unwrap_err().number(), number);
            // the fault is not looked at on the way to another key
            let other = entries[(at + 1) % 4];
            let value = GeoKeyValue::Short(other[3]);
            assert_eq!(look(&file, other[0]).0, Ok(value), "{key}");
        }
    }
}

#[test]
fn no_entry_is_read_of_a_directory_that_is_absent_or_bad() {
    let good = directory(&[[10, 0, 1, 0], [20, 0, 1, 1]]);
    let mut other = good.clone();
    other.1[2] = 2;
    assert_eq!(look(&file(&[]), 10), (Err(40), 0));
    assert_eq!(look(&file(&[(DOUBLES, good.1.clone())]), 10), (Err(40), 0));
    for bad in [
        (DIRECTORY, good.1[..7].to_vec()),
        (DIRECTORY, good.1[..23].to_vec()),
        other,
    ] {
        // only the first directory counts
        assert_eq!(look(&file(&[bad, good.clone()]), 10), (Err(41), 0));
    }
    assert_eq!(place(&file(&[good]), 10), (Ok(0), 2));
}

#[test]
fn no_entry_is_read_of_a_file_that_does_not_pass() {
    let good = file_of_keys(&[10, 20, 30]);
    assert_eq!(place(&good, 20), (Ok(1), 1));
    let nan = f64::NAN.to_le_bytes();
    for (number, place, bytes) in [
        (2, 0, &b"l"[..]),
        (3, 25, &[3]),
        (4, 94, &[226]),
        (5, 104, &[4]),
        (6, 105, &[19]),
        (7, 96, &[226, 0, 0, 0]),
        (8, 100, &[2]),
        (9, 107, &[1]),
        (10, 131, &nan),
    ] {
        let mut file = good.clone();
        file[place..place + bytes.len()].copy_from_slice(bytes);
        assert_eq!(look(&file, 20), (Err(number), 0));
    }
    for short in [&[][..], &good[..226]] {
        assert_eq!(look(short, 20), (Err(1), 0));
    }
}

/// 8,190 is one short of 2^13 - 1, so that every key takes 13 reads or fewer, and half of them take 13.
#[test]
fn the_longest_directory_takes_13_reads() {
    let keys: Vec<u16> = (0..8190).map(|at| 2 * at + 1).collect();
    let file = file_of_keys(&keys);
    let mut counts = [0; 14];
    for &key in &keys {
        let (found, reads) = place(&file, key);
        assert_eq!(found, Ok(key / 2), "{key}");
        counts[reads as usize] += 1;
    }
    let wanted = [0, 1, 2, 4, 8, 16, 32, 64, 128, 256, 512, 1024, 2048, 4095];
    assert_eq!(counts, wanted);
    for key in (0..16380).step_by(2) {
        assert_eq!(place(&file, key), (Err(42), 13), "{key}");
    }
    assert_eq!(place(&file, 65535), (Err(42), 12));
}

//! Directories of a few keys that rise: each key, those between, and those beyond both ends.

use compare::compared::Compared;

use super::table::{around, assert_due, due, file_of, found, refused, rising};

/// Keys, the key that is asked for, its place if it is found, and the entries read.
type Written = (&'static [u16], u16, Option<usize>, usize);

const WRITTEN: [Written; 37] = [
    (&[], 0, None, 0),
    (&[], 10, None, 0),
    (&[], 65535, None, 0),
    (&[10], 10, Some(0), 1),
    (&[10], 9, None, 1),
    (&[10], 11, None, 1),
    // Of two the second is in the middle: 2 / 2 is 1.
    (&[10, 20], 20, Some(1), 1),
    (&[10, 20], 10, Some(0), 2),
    (&[10, 20], 9, None, 2),
    (&[10, 20], 15, None, 2),
    (&[10, 20], 21, None, 1),
    (&[10, 20, 30], 20, Some(1), 1),
    (&[10, 20, 30], 10, Some(0), 2),
    (&[10, 20, 30], 30, Some(2), 2),
    (&[10, 20, 30], 9, None, 2),
    (&[10, 20, 30], 19, None, 2),
    (&[10, 20, 30], 21, None, 2),
    (&[10, 20, 30], 31, None, 2),
    // Four: the third, then the second of two or the one behind.
    (&[10, 20, 30, 40], 30, Some(2), 1),
    (&[10, 20, 30, 40], 20, Some(1), 2),
    (&[10, 20, 30, 40], 40, Some(3), 2),
    (&[10, 20, 30, 40], 10, Some(0), 3),
    (&[10, 20, 30, 40], 5, None, 3),
    (&[10, 20, 30, 40], 15, None, 3),
    (&[10, 20, 30, 40], 25, None, 2),
    (&[10, 20, 30, 40], 45, None, 2),
    // Five: two before the middle and two behind it.
    (&[10, 20, 30, 40, 50], 10, Some(0), 3),
    (&[10, 20, 30, 40, 50], 20, Some(1), 2),
    (&[10, 20, 30, 40, 50], 30, Some(2), 1),
    (&[10, 20, 30, 40, 50], 40, Some(3), 3),
    (&[10, 20, 30, 40, 50], 50, Some(4), 2),
    (&[10, 20, 30, 40, 50], 35, None, 3),
    (&[10, 20, 30, 40, 50], 55, None, 2),
    // Keys that differ in one byte alone, so that a byte left out or swapped shows.
    (&[0x00FF, 0x0100, 0x01FE], 0x00FF, Some(0), 2),
    (&[0x00FF, 0x0100, 0x01FE], 0x0100, Some(1), 1),
    (&[0x00FF, 0x0100, 0x01FE], 0x01FE, Some(2), 2),
    (&[0x00FF, 0x0100, 0x01FE], 0x00FE, None, 2),
];

#[test]
fn directories_answer_as_it_is_written_here() {
    let mut compared = Compared::new();
    for (keys, key, place, reads) in WRITTEN {
        let case = format!("{keys:?}, asked for {key}");
        compared.case(&case);
        let (plain, halving) = compared.geokey_lookups(&file_of(keys), key);
        let written = place.map_or(refused(42, reads), |place| found(place, reads));
        assert_eq!(halving, written, "{case}");
        assert_eq!(halving.geokey(), plain, "{case}");
        assert_eq!(due(keys, key), written, "{case}");
    }
}

#[test]
fn every_key_of_up_to_40_and_every_one_between_is_found_or_missed_by_the_due_reads() {
    let mut compared = Compared::new();
    for count in 0..=40 {
        let last = (1 << 16) - count;
        for keys in [
            rising(1024, 3, count),
            rising(0, 1, count),
            rising(last as u16, 1, count),
            rising(200, 256, count),
            rising(0x7FF0, 1, count),
        ] {
            assert_due(&mut compared, &keys, around(&keys));
        }
    }
}

#[test]
fn both_ends_of_all_numbers_are_keys_like_others() {
    let mut compared = Compared::new();
    for keys in [
        [0, 65535].as_slice(),
        &[0, 1, 65534, 65535],
        &[0, 32767, 32768, 65535],
        &[65535],
        &[0],
    ] {
        assert_due(&mut compared, keys, around(keys));
    }
}

#[test]
fn so_many_keys_are_found_by_one_read_two_and_more_as_the_halves_have() {
    for count in 1..=40usize {
        let keys = rising(7, 2, count);
        let file = file_of(&keys);
        let (mut compared, mut found_by) = (Compared::new(), [0; 7]);
        for &key in &keys {
            found_by[compared.geokey_halve(&file, key).reads as usize] += 1;
        }
        // One key by the first read, two by the second, four by the third, and the rest by the last.
        let mut left = count;
        for (reads, &keys) in found_by.iter().enumerate().skip(1) {
            let most = left.min(1 << (reads - 1));
            assert_eq!(keys, most, "{reads} reads in {count} keys");
            left -= most;
        }
        assert_eq!((left, found_by[0]), (0, 0));
    }
}

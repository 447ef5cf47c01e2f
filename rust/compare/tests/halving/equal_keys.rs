//! Keys that stand twice, or many times: of these the one that is read first is found, whichever is the first of all.

use compare::compared::Compared;

use super::table::{around, assert_due, file_of, found, rising};

/// Keys, the place of the first 7 among them, the place of the 7 that halving comes to, and its reads.
const WRITTEN: [(&[u16], usize, usize, usize); 9] = [
    (&[7, 7], 0, 1, 1),
    (&[7, 7, 8], 0, 1, 1),
    (&[6, 7, 7], 1, 1, 1),
    (&[7, 7, 7, 7], 0, 2, 1),
    (&[7, 7, 8, 9], 0, 1, 2),
    (&[5, 6, 7, 7], 2, 2, 1),
    (&[5, 7, 7, 7, 9], 1, 2, 1),
    (&[7, 7, 7, 8, 9, 9, 9, 9], 0, 2, 2),
    (&[5, 6, 6, 6, 6, 6, 7, 7], 6, 6, 2),
];

#[test]
fn of_equal_keys_the_one_that_is_written_here_is_found() {
    let mut compared = Compared::new();
    for (keys, first, place, reads) in WRITTEN {
        let case = format!("{keys:?}");
        compared.case(&case);
        let (plain, halving) = compared.geokey_lookups(&file_of(keys), 7);
        assert_eq!(halving, found(place, reads), "{case}");
        assert_eq!(plain.value, first as u64, "{case}");
    }
}

#[test]
fn a_key_that_stands_twice_side_by_side_is_found_by_the_due_reads() {
    let mut compared = Compared::new();
    for count in 1..=24 {
        for twice in 0..count {
            let mut keys = rising(100, 3, count);
            keys.insert(twice, keys[twice]);
            assert_due(&mut compared, &keys, around(&keys));
        }
    }
}

#[test]
fn a_key_that_stands_at_two_places_is_found_by_the_due_reads() {
    let mut compared = Compared::new();
    for count in 2..=12 {
        for (one, other) in (0..count).flat_map(|one| (0..one).map(move |other| (one, other))) {
            let mut keys = rising(100, 3, count);
            keys[one] = keys[other];
            assert_due(&mut compared, &keys, around(&keys));
        }
    }
}

#[test]
fn of_many_equal_keys_the_middle_one_is_found_by_one_read() {
    let mut compared = Compared::new();
    for count in (1..=40).chain([8189, 8190]) {
        let keys = vec![7; count];
        assert_due(&mut compared, &keys, [7, 6, 8]);
        let answer = compared.geokey_halve(&file_of(&keys), 7);
        assert_eq!(answer, found(count / 2, 1), "{count} keys");
    }
}

#[test]
fn runs_of_equal_keys_of_any_lengths_are_found_by_the_due_reads() {
    let mut compared = Compared::new();
    for [few, more, last] in (0..216).map(|row| [row % 6, row / 6 % 6, row / 36]) {
        let runs = [vec![10; few], vec![20; more], vec![30; last]];
        let keys = runs.concat();
        assert_due(&mut compared, &keys, around(&keys));
    }
}

//! The most keys that a record has room for, 8,190, and one fewer: 13 reads at most.

use compare::compared::Compared;
use compare::rng::{Rng, seeds};
use compare::spec::{directory, projection};

use super::table::{
    DIRECTORY, assert_due, due, entries, file_of, file_with, found, refused, rising,
};

const MOST: usize = 8190;

/// Keys at both ends, at the middle and beside each, by their places.
const PLACES: [usize; 12] = [
    0, 1, 2, 2047, 2048, 4093, 4094, 4095, 4096, 6143, 8187, 8188,
];

#[test]
fn keys_at_both_ends_in_the_middle_between_and_beyond_are_found_or_missed_by_the_due_reads() {
    let mut compared = Compared::new();
    for count in [MOST - 1, MOST] {
        let keys = rising(5, 7, count);
        let (first, last) = (keys[0], keys[count - 1]);
        let beyond = [0, first - 1, last + 1, last + 8, u16::MAX];
        let places = PLACES.into_iter().chain([count - 1]);
        let near = places.flat_map(|place| [keys[place] - 1, keys[place], keys[place] + 1]);
        assert_due(&mut compared, &keys, near.chain(beyond));
    }
}

#[test]
fn random_keys_of_many_are_found_or_missed_by_the_due_reads() {
    for seed in seeds() {
        let (mut rng, mut compared) = (Rng::new(seed), Compared::new());
        for count in [MOST - 1, MOST, rng.from_to(41, MOST)] {
            let keys = rising(5, 7, count);
            let places: Vec<usize> = (0..200).map(|_| rng.below(count)).collect();
            let asked = places.iter().map(|&place| keys[place]);
            let others: Vec<u16> = (0..200).map(|_| rng.next() as u16).collect();
            assert_due(&mut compared, &keys, asked.chain(others));
        }
    }
}

#[test]
fn each_of_8190_keys_is_found_and_13_reads_are_reached_and_never_passed() {
    let keys = rising(1, 2, MOST);
    let (file, mut compared) = (file_of(&keys), Compared::new());
    let mut found_by = [0; 14];
    for (place, &key) in keys.iter().enumerate() {
        let answer = compared.geokey_halve(&file, key);
        assert_eq!(answer, found(place, answer.reads as usize), "{key}");
        assert_eq!(answer, due(&keys, key), "{key}");
        found_by[answer.reads as usize] += 1;
    }
    // Each read reaches twice as many keys as the one before; 8,190 is one short of 2^13 - 1.
    assert_eq!(found_by[..7], [0, 1, 2, 4, 8, 16, 32]);
    assert_eq!(found_by[7..], [64, 128, 256, 512, 1024, 2048, 4095]);
}

#[test]
fn keys_beyond_both_ends_and_the_ends_have_the_reads_that_are_written_here() {
    let mut compared = Compared::new();
    let (fewer, most) = (
        file_of(&rising(1, 2, MOST - 1)),
        file_of(&rising(1, 2, MOST)),
    );
    for (file, key, answer) in [
        // By 4095, 2047 and so on to 1 entries, at the front, there are 13 steps; the last key is found one sooner.
        (&most, 0, refused(42, 13)),
        (&most, 1, found(0, 13)),
        (&most, 2, refused(42, 13)),
        (&most, 8191, found(4095, 1)),
        (&most, 16379, found(8189, 12)),
        (&most, 16380, refused(42, 12)),
        (&most, 65535, refused(42, 12)),
        (&fewer, 0, refused(42, 13)),
        (&fewer, 1, found(0, 13)),
        (&fewer, 8189, found(4094, 1)),
        (&fewer, 16377, found(8188, 12)),
        (&fewer, 16378, refused(42, 12)),
    ] {
        assert_eq!(compared.geokey_halve(file, key), answer, "{key}");
    }
}

#[test]
fn many_keys_in_any_order_are_read_13_times_at_most() {
    for seed in seeds() {
        let (mut rng, mut compared) = (Rng::new(seed), Compared::new());
        let mut reached = [0; 14];
        for _ in 0..20 {
            let keys: Vec<u16> = (0..MOST).map(|_| rng.next() as u16).collect();
            let file = file_of(&keys);
            for key in (0..20).map(|_| rng.next() as u16) {
                compared.case(format!("seed {seed}, key {key}"));
                let answer = compared.geokey_halve(&file, key);
                assert_eq!(answer, due(&keys, key), "seed {seed}, key {key}");
                reached[answer.reads as usize] += 1;
            }
        }
        assert!(reached[13] > 100, "{reached:?}");
    }
}

#[test]
fn a_payload_of_65535_bytes_has_8190_keys_and_no_more() {
    let (keys, mut compared) = (rising(1, 2, MOST), Compared::new());
    for (count, behind, answer) in [
        (8190, 7, found(8189, 12)),
        (8190, 0, found(8189, 12)),
        (8191, 7, refused(41, 0)),
        (8191, 0, refused(41, 0)),
        (65535, 7, refused(41, 0)),
    ] {
        let whole = directory([1, 1, 0, count], &entries(&keys));
        let payload = [whole, vec![0xFF; behind]].concat();
        assert_eq!(payload.len(), 65528 + behind);
        let file = file_with(vec![projection(DIRECTORY, payload)]);
        let case = format!("{count} keys, {behind} bytes behind");
        compared.case(&case);
        assert_eq!(compared.geokey_halve(&file, 16379), answer, "{case}");
    }
}

//! Directories whose keys do not rise: the answer is what the halves lead to, and often not that of the plain lookup.

use compare::compared::Compared;
use compare::rng::{Rng, seeds};

use super::table::{around, assert_due, due, file_of, found, halved, refused, rise, rising};

/// Keys, the key that is asked for, its place by the plain lookup, its place by halving if it is found, and the reads.
type Written = (&'static [u16], u16, usize, Option<usize>, usize);

const WRITTEN: [Written; 12] = [
    // Falling: the middle one alone is found.
    (&[20, 10], 10, 1, Some(1), 1),
    (&[20, 10], 20, 0, None, 1),
    (&[30, 20, 10], 30, 0, None, 2),
    (&[30, 20, 10], 20, 1, Some(1), 1),
    (&[30, 20, 10], 10, 2, None, 2),
    // Out of order in one half: the other is as if it rose.
    (&[20, 10, 30, 40], 20, 0, None, 2),
    (&[20, 10, 30, 40], 10, 1, Some(1), 2),
    (&[20, 10, 30, 40], 40, 3, Some(3), 2),
    // The middle one is the largest, or the smallest.
    (&[10, 20, 90, 30, 40], 40, 4, None, 2),
    (&[10, 20, 90, 30, 40], 10, 0, Some(0), 3),
    (&[50, 60, 10, 70, 80], 50, 0, None, 3),
    (&[50, 60, 10, 70, 80], 70, 3, Some(3), 3),
];

#[test]
fn directories_that_do_not_rise_answer_as_it_is_written_here() {
    let mut compared = Compared::new();
    for (keys, key, plain_place, place, reads) in WRITTEN {
        let case = format!("{keys:?}, asked for {key}");
        compared.case(&case);
        assert!(!rise(keys), "{case}");
        let (plain, halving) = compared.geokey_lookups(&file_of(keys), key);
        let written = place.map_or(refused(42, reads), |place| found(place, reads));
        assert_eq!(halving, written, "{case}");
        assert_eq!(due(keys, key), written, "{case}");
        assert_eq!(plain, found(plain_place, 0).geokey(), "{case}");
    }
}

#[test]
fn of_keys_that_fall_the_middle_one_alone_is_found() {
    let mut compared = Compared::new();
    for count in (1..=40).chain([8189, 8190]) {
        let mut keys = rising(100, 3, count);
        keys.reverse();
        let some = (0..count).step_by(count.div_ceil(40));
        for place in some.chain([count / 2, count - 1]) {
            let key = keys[place];
            assert_due(&mut compared, &keys, [key - 1, key, key + 1]);
            let middle = halved(&keys, key).0 == Some(place);
            assert_eq!(middle, place == count / 2, "{place} of {count}");
        }
    }
}

/// All orders of these keys.
fn orders(keys: &[u16]) -> Vec<Vec<u16>> {
    let Some((&first, rest)) = keys.split_first() else {
        return vec![Vec::new()];
    };
    let of_rest = orders(rest);
    let with_first = |place: usize| {
        let insert = move |order: &Vec<u16>| {
            let mut order = order.clone();
            order.insert(place, first);
            order
        };
        of_rest.iter().map(insert).collect::<Vec<_>>()
    };
    (0..keys.len()).flat_map(with_first).collect()
}

#[test]
fn all_orders_of_up_to_six_keys_answer_as_the_halves_lead() {
    let mut compared = Compared::new();
    // Keys that both lookups find, and that halving misses.
    let mut reached = [0; 2];
    for count in 0..=6 {
        let all = orders(&rising(10, 10, count));
        assert_eq!(all.len(), (1..=count).product::<usize>());
        for keys in all {
            assert_due(&mut compared, &keys, around(&keys));
            let missed = keys.iter().filter(|&&key| halved(&keys, key).0.is_none());
            let missed = missed.count();
            reached[0] += count - missed;
            reached[1] += missed;
        }
    }
    assert_eq!(reached, [2292, 2747]);
}

#[test]
fn shuffled_directories_answer_as_the_halves_lead() {
    for seed in seeds() {
        let (mut rng, mut compared) = (Rng::new(seed), Compared::new());
        for _ in 0..1_000 {
            let count = rng.from_to(2, 40);
            let mut keys = rising(100, 3, count);
            for place in (1..count).rev() {
                keys.swap(place, rng.from_to(0, place));
            }
            assert_due(&mut compared, &keys, around(&keys));
        }
    }
}

#[test]
fn a_directory_with_two_keys_swapped_answers_as_the_halves_lead() {
    let mut compared = Compared::new();
    for count in 2..=12 {
        for (one, other) in (0..count).flat_map(|one| (0..one).map(move |other| (one, other))) {
            let mut keys = rising(100, 3, count);
            keys.swap(one, other);
            assert_due(&mut compared, &keys, around(&keys));
        }
    }
}

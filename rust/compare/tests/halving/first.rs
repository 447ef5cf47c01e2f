//! The first directory and the first parameter record count, the entries that are counted, and no bytes behind them.

use compare::compared::Compared;
use compare::spec::{RecordSpec, directory, padded, projection};

use super::table::{
    DIRECTORY, DOUBLES, TEXTS, counting, directory_of, due, entries, file_with, found, refused,
    rising,
};

#[test]
fn of_several_directories_only_the_first_counts() {
    let mut compared = Compared::new();
    let few = directory_of(&[[10, 0, 1, 7], [20, 0, 1, 8]]);
    let many = directory_of(&entries(&rising(10, 10, 9)));
    let none = directory_of(&[]);
    let bad = counting(3, &[[10, 0, 1, 7], [20, 0, 1, 8]]);
    for (records, key, answer) in [
        ([&few, &many], 10, found(7, 2)),
        ([&many, &few], 10, found(0, 4)),
        ([&few, &many], 90, refused(42, 1)),
        ([&none, &many], 10, refused(42, 0)),
        ([&bad, &many], 10, refused(41, 0)),
        ([&many, &bad], 20, found(1, 3)),
        ([&few, &bad], 20, found(8, 1)),
        ([&few, &few], 20, found(8, 1)),
    ] {
        let file = file_with(records.map(RecordSpec::clone).to_vec());
        assert_eq!(compared.geokey_halve(&file, key), answer, "{key}");
    }
}

#[test]
fn a_directory_of_another_user_or_record_id_is_passed_over() {
    let mut compared = Compared::new();
    let own = directory_of(&[[10, 0, 1, 7], [20, 0, 1, 8], [30, 0, 1, 9]]);
    let strangers = [
        RecordSpec {
            user: padded(b"LASF_Spec"),
            ..counting(0, &[])
        },
        RecordSpec {
            record_id: DIRECTORY + 1,
            ..counting(0, &[])
        },
    ];
    for stranger in strangers {
        let file = file_with(vec![stranger.clone(), stranger, own.clone()]);
        assert_eq!(compared.geokey_halve(&file, 30), found(9, 2));
    }
    let spaces = RecordSpec {
        user: *b"LASF_Projection ",
        ..own
    };
    let file = file_with(vec![spaces, counting(0, &[])]);
    assert_eq!(compared.geokey_halve(&file, 30), found(9, 2));
}

#[test]
fn of_several_parameter_records_only_the_first_counts() {
    let mut compared = Compared::new();
    for location in [DOUBLES, TEXTS] {
        let keys = directory_of(&[[10, location, 1, 0], [20, 0, 1, 9]]);
        let (short, long) = (projection(location, []), projection(location, vec![0; 8]));
        for (records, number) in [
            ([&short, &keys, &long], 46),
            ([&keys, &short, &long], 46),
            ([&long, &keys, &short], 0),
            ([&keys, &long, &short], 0),
        ] {
            let file = file_with(records.map(RecordSpec::clone).to_vec());
            let answer = compared.geokey_halve(&file, 10);
            assert_eq!((answer.number, answer.reads), (number, 2));
        }
    }
}

#[test]
fn entries_that_are_not_counted_are_no_entries() {
    let mut compared = Compared::new();
    let keys = rising(100, 3, 20);
    for count in 0..=20 {
        let file = file_with(vec![counting(count, &entries(&keys))]);
        for key in 99..=160 {
            compared.case(format!("{count} of 20, asked for {key}"));
            let (plain, halving) = compared.geokey_lookups(&file, key);
            assert_eq!(halving, due(&keys[..count], key), "{key} of {count}");
            assert_eq!(halving.geokey(), plain, "{key} of {count}");
        }
    }
}

#[test]
fn bytes_behind_the_entries_are_ignored() {
    let mut compared = Compared::new();
    for count in 0..=9 {
        let keys = rising(100, 3, count);
        let whole = directory([1, 1, 0, count as u16], &entries(&keys));
        for behind in (0..=17).chain([1000, 65535 - whole.len()]) {
            for byte in [0, 100, 255] {
                let payload = [whole.clone(), vec![byte; behind]].concat();
                let file = file_with(vec![projection(DIRECTORY, payload)]);
                for key in 98..=130 {
                    let answer = compared.geokey_halve(&file, key);
                    assert_eq!(answer, due(&keys, key), "{key}, {behind} behind");
                }
            }
        }
    }
}

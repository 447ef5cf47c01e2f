//! The order among 40 to 46: which is given where several could be.

use compare::compared::Compared;
use compare::spec::{RecordSpec, projection};

use super::table::{DIRECTORY, DOUBLES, Entry, TEXTS, counting, directory_of, file_with, refused};

/// The key that is asked for. It is in the second of three entries, or in the first, after one read more.
const KEY: u16 = 200;

/// Both ways to place the entry, with the reads to it.
fn around(fields: [u16; 3]) -> [(Vec<Entry>, usize); 2] {
    let entry = |key: u16| [key, fields[0], fields[1], fields[2]];
    let good = |key: u16| [key, 0, 1, 9];
    [
        (vec![good(100), entry(KEY), good(300)], 1),
        (vec![entry(KEY), good(210), good(300)], 2),
    ]
}

/// Asks for the key in both places; the number comes with the reads to it.
fn assert_number(fields: [u16; 3], behind: &[RecordSpec], number: u64) {
    let mut compared = Compared::new();
    for (entries, reads) in around(fields) {
        let records = [&[directory_of(&entries)], behind].concat();
        let (plain, halving) = compared.geokey_lookups(&file_with(records), KEY);
        assert_eq!(halving, refused(number, reads), "{fields:?}");
        assert_eq!(halving.geokey(), plain, "{fields:?}");
    }
}

/// A parameter record of so many bytes.
fn of(record_id: u16, length: usize) -> RecordSpec {
    projection(record_id, vec![1; length])
}

#[test]
fn a_bad_directory_is_41_whether_or_not_it_has_the_key_or_a_fault_in_its_entry() {
    let mut compared = Compared::new();
    for fields in [[0, 1, 9], [1, 1, 9], [0, 2, 9], [TEXTS, 1, 9]] {
        for (entries, _) in around(fields) {
            for key in [KEY, KEY + 1] {
                let file = file_with(vec![counting(4, &entries)]);
                assert_eq!(compared.geokey_halve(&file, key), refused(41, 0));
            }
        }
    }
    let short = projection(DIRECTORY, vec![1, 0, 1, 0, 0, 0, 0]);
    let answer = compared.geokey_halve(&file_with(vec![short]), KEY);
    assert_eq!(answer, refused(41, 0));
}

#[test]
fn no_directory_is_40_though_parameter_records_are_there() {
    let mut compared = Compared::new();
    let file = file_with(vec![of(DOUBLES, 8), of(TEXTS, 8)]);
    assert_eq!(compared.geokey_halve(&file, KEY), refused(40, 0));
}

#[test]
fn a_key_that_is_missed_is_42_whatever_faults_the_entries_on_the_way_have() {
    let mut compared = Compared::new();
    for fields in [[1, 1, 9], [0, 2, 9], [DOUBLES, 0, 9], [TEXTS, 1, 9]] {
        let entry = |key: u16| [key, fields[0], fields[1], fields[2]];
        let file = file_with(vec![directory_of(&[entry(100), entry(199), entry(300)])]);
        assert_eq!(compared.geokey_halve(&file, KEY), refused(42, 2));
    }
}

#[test]
fn a_fault_in_an_entry_that_is_not_come_to_does_not_count() {
    let mut compared = Compared::new();
    for fields in [[1, 1, 9], [0, 2, 9], [DOUBLES, 1, 9], [TEXTS, 1, 9]] {
        // Falling keys: the plain lookup comes to the fault, and halving to none left.
        let entries = [[KEY, fields[0], fields[1], fields[2]], [100, 0, 1, 9]];
        let file = file_with(vec![directory_of(&entries)]);
        let (plain, halving) = compared.geokey_lookups(&file, KEY);
        assert_eq!(halving, refused(42, 1), "{fields:?}");
        assert!((43..=45).contains(&plain.number), "{fields:?}");
    }
}

#[test]
fn number_43_comes_before_44_45_and_46() {
    for count in [0, 1, 2, 65535] {
        for location in [1, 34735, 34738, 34767] {
            assert_number([location, count, 65535], &[], 43);
            assert_number([location, count, 65535], &[of(location, 8)], 43);
        }
    }
}

#[test]
fn number_44_comes_before_45_and_46_and_is_not_for_texts() {
    for count in [0, 2, 65535] {
        assert_number([DOUBLES, count, 0], &[], 44);
        assert_number([DOUBLES, count, 65535], &[of(DOUBLES, 8)], 44);
        assert_number([TEXTS, count, 0], &[], 45);
        assert_number([TEXTS, count, 65535], &[of(TEXTS, 8)], 46);
    }
    assert_number([DOUBLES, 1, 0], &[], 45);
    assert_number([DOUBLES, 1, 1], &[of(DOUBLES, 8)], 46);
}

#[test]
fn number_45_is_given_where_another_user_has_a_record_too_short() {
    for location in [DOUBLES, TEXTS] {
        let stranger = RecordSpec {
            user: *b"LASF_Spec\0\0\0\0\0\0\0",
            ..of(location, 3)
        };
        assert_number([location, 1, 9], &[stranger], 45);
        assert_number([location, 1, 9], &[of(location, 3)], 46);
    }
}

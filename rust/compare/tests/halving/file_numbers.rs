//! The numbers 1 to 10 of the file checks: with no reads beside them, whatever the directory holds.

use compare::answers::GeoKeyRead;
use compare::boundaries;
use compare::compared::{Compared, Function};
use compare::damage::spoil;
use compare::spec::{FileSpec, RecordSpec, projection};

use super::table::{TEXTS, counting, directory_of, due, entries, file_with, refused, rising};

/// Asks files on both sides of the number's boundary: on one it is given, on the other the lookup goes on to 40.
pub fn assert_file_number(compared: &mut Compared, number: u64) {
    let mut given = [0; 2];
    for case in boundaries::of(number) {
        compared.case(&case.name);
        let passes = case.number == 0;
        let due = if passes { 40 } else { number };
        let answer = compared.geokey_halve(&case.file, 1024);
        assert_eq!(answer, refused(due, 0), "{}", case.name);
        given[usize::from(passes)] += 1;
    }
    assert!(given.iter().all(|&times| times > 0), "{given:?}");
}

/// A file with these records, and bytes behind its point so that single fields may be spoiled one by one.
fn spoiled(records: &[RecordSpec], numbers: &[u64]) -> Vec<u8> {
    let mut file = FileSpec {
        records: records.to_vec(),
        ..FileSpec::common(1)
    }
    .bytes();
    numbers.iter().rev().for_each(|&it| spoil(&mut file, it));
    file
}

#[test]
fn a_key_that_would_be_found_after_some_reads_is_not_read_for_in_a_file_that_fails() {
    let mut compared = Compared::new();
    for count in 1..=9 {
        let keys = rising(100, 10, count);
        let directory = [directory_of(&entries(&keys))];
        for key in keys.iter().flat_map(|&key| [key, key + 1]) {
            let sound = compared.geokey_halve(&spoiled(&directory, &[]), key);
            assert_eq!(sound, due(&keys, key));
            assert!(sound.reads > 0);
            for number in 1..=10 {
                compared.case(format!("{number}, key {key} of {count}"));
                let answer = compared.geokey_halve(&spoiled(&directory, &[number]), key);
                assert_eq!(answer, refused(number, 0));
            }
        }
    }
}

/// Records that give this number to key 100, 40 to 46 or 0, and the answer with its reads.
fn records_for(number: u64) -> (Vec<RecordSpec>, GeoKeyRead) {
    let one = |[location, count, value]: [u16; 3]| directory_of(&[[100, location, count, value]]);
    let records = match number {
        40 => vec![],
        41 => vec![counting(2, &[[100, 0, 1, 0]])],
        42 => vec![directory_of(&[[99, 0, 1, 0]])],
        43 => vec![one([1, 1, 0])],
        44 => vec![one([0, 2, 0])],
        45 => vec![one([TEXTS, 1, 0])],
        46 => vec![one([TEXTS, 5, 0]), projection(TEXTS, b"text".as_slice())],
        _ => vec![one([0, 1, 0])],
    };
    let reads = if matches!(number, 40 | 41) { 0 } else { 1 };
    (records, refused(number, reads))
}

#[test]
fn a_file_number_comes_before_40_to_46_and_of_several_the_first() {
    let mut compared = Compared::new();
    for later in [0, 40, 41, 42, 43, 44, 45, 46] {
        let (records, due) = records_for(later);
        assert_eq!(compared.geokey_halve(&file_with(records.clone()), 100), due);
        for first in 1..=10 {
            for second in first..=10 {
                compared.case(format!("{first}, {second} and {later}"));
                let file = spoiled(&records, &[first, second]);
                assert_eq!(compared.geokey_halve(&file, 100), refused(first, 0));
            }
        }
    }
    compared.assert_all_reached(&[Function::GeoKeyHalve]);
}

#[test]
fn no_bytes_at_all_give_1() {
    let mut compared = Compared::new();
    for key in [0, 1, 1024, 65535] {
        assert_eq!(compared.geokey_halve(&[], key), refused(1, 0));
    }
}

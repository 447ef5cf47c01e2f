//! The second way of finding a GeoKey: by halving the directory's entries, whose keys should rise.

use std::cmp::Ordering;

use crate::file::LasFile;
use crate::geokey::{self, ENTRY, Entry, GeoValue};
use crate::refusal::Refusal;
use crate::vlr::Vlrs;

/// What a lookup by halving answers.
#[derive(Debug, Clone, Copy, PartialEq, Eq)]
pub struct HalvingLookup {
    /// The key's value or a refusal: 1 to 10 for the file, then 40 to 46.
    pub value: Result<GeoValue, Refusal>,
    /// The number of entries read: 0 beside 1 to 10, 40 and 41, and at most 13.
    pub reads: u64,
}

/// Finds the value of a GeoKey by halving the directory.
///
/// Where the keys rise strictly, the value or refusal is that of [`LasFile::geokey`]. Any other directory is halved in
/// the same way, so a key that it has may be missed, and of equal keys a later one may count.
pub fn find_by_halving(file: &[u8], key: u16) -> HalvingLookup {
    LasFile::open(file)
        .and_then(|file| halve_directory(&file.vlrs(), key))
        .unwrap_or_else(|refusal| HalvingLookup {
            value: Err(refusal),
            reads: 0,
        })
}

/// Looks the key up in the first directory. It fails with 40 or 41 alone, where no entry is read.
fn halve_directory(vlrs: &Vlrs<'_>, key: u16) -> Result<HalvingLookup, Refusal> {
    let (entry, reads) = halve(geokey::entries(vlrs)?, key);
    let value = entry
        .ok_or(Refusal::NoSuchKey)
        .and_then(|entry| entry.value(vlrs));
    Ok(HalvingLookup { value, reads })
}

/// The entry with this key that halving comes to, if any, and the number of entries read.
fn halve(entries: &[[u8; ENTRY]], key: u16) -> (Option<Entry>, u64) {
    let mut left = entries;
    let mut reads = 0;
    while !left.is_empty() {
        let middle = left.len() / 2;
        let entry = Entry::read(&left[middle]);
        reads += 1;
        left = match entry.key.cmp(&key) {
            Ordering::Equal => return (Some(entry), reads),
            Ordering::Greater => &left[..middle],
            Ordering::Less => &left[middle + 1..],
        };
    }
    (None, reads)
}

#[cfg(test)]
mod tests {
    use super::*;
    use crate::geokey::{DIRECTORY, DOUBLES, TEXTS};
    use crate::sample::{geokey_directory, geokey_file, p9_file};

    /// A file whose directory has these keys, each with its place among them, counted from 0, as its value.
    fn file_with_keys(keys: &[u16]) -> Vec<u8> {
        let entries: Vec<[u16; 4]> = (0..).zip(keys).map(|(at, &key)| [key, 0, 1, at]).collect();
        geokey_file(&[geokey_directory(&entries)])
    }

    /// The answer if the key is found after this many reads, with this value.
    fn found(value: u16, reads: u64) -> HalvingLookup {
        let value = Ok(GeoValue::Short(value));
        HalvingLookup { value, reads }
    }

    /// The answer if there is a refusal after this many reads.
    fn refused(refusal: Refusal, reads: u64) -> HalvingLookup {
        let value = Err(refusal);
        HalvingLookup { value, reads }
    }

    /// The answer if no entry is left after this many reads.
    fn missed(reads: u64) -> HalvingLookup {
        refused(Refusal::NoSuchKey, reads)
    }

    fn plain(file: &[u8], key: u16) -> Result<GeoValue, Refusal> {
        LasFile::open(file).and_then(|file| file.geokey(key))
    }

    #[test]
    fn no_keys_are_missed_without_a_read() {
        let mut directory = geokey_directory(&[[7, 0, 1, 9]]);
        directory.1[6] = 0;
        for file in [file_with_keys(&[]), geokey_file(&[directory])] {
            for key in [0, 7, u16::MAX] {
                assert_eq!(find_by_halving(&file, key), missed(0), "{key}");
            }
        }
    }

    #[test]
    fn one_key_is_read_whatever_is_asked_for() {
        let file = file_with_keys(&[10]);
        assert_eq!(find_by_halving(&file, 10), found(0, 1));
        for key in [0, 9, 11, u16::MAX] {
            assert_eq!(find_by_halving(&file, key), missed(1), "{key}");
        }
    }

    #[test]
    fn of_two_keys_the_second_is_read_first() {
        let file = file_with_keys(&[10, 20]);
        assert_eq!(find_by_halving(&file, 20), found(1, 1));
        assert_eq!(find_by_halving(&file, 10), found(0, 2));
        assert_eq!(find_by_halving(&file, 5), missed(2));
        assert_eq!(find_by_halving(&file, 15), missed(2));
        assert_eq!(find_by_halving(&file, 25), missed(1));
    }

    #[test]
    fn of_three_keys_the_second_is_read_first() {
        let file = file_with_keys(&[10, 20, 30]);
        assert_eq!(find_by_halving(&file, 20), found(1, 1));
        assert_eq!(find_by_halving(&file, 10), found(0, 2));
        assert_eq!(find_by_halving(&file, 30), found(2, 2));
        for key in [5, 15, 25, 35] {
            assert_eq!(find_by_halving(&file, key), missed(2), "{key}");
        }
    }

    #[test]
    fn of_four_keys_the_third_is_read_first() {
        let file = file_with_keys(&[10, 20, 30, 40]);
        for (key, value, reads) in [(10, 0, 3), (20, 1, 2), (30, 2, 1), (40, 3, 2)] {
            assert_eq!(find_by_halving(&file, key), found(value, reads), "{key}");
        }
        for (key, reads) in [(5, 3), (15, 3), (25, 2), (35, 2), (45, 2)] {
            assert_eq!(find_by_halving(&file, key), missed(reads), "{key}");
        }
    }

    #[test]
    fn the_smallest_and_the_largest_number_are_keys_like_others() {
        let file = file_with_keys(&[0, 1, u16::MAX]);
        assert_eq!(find_by_halving(&file, 0), found(0, 2));
        assert_eq!(find_by_halving(&file, u16::MAX), found(2, 2));
        assert_eq!(find_by_halving(&file, u16::MAX - 1), missed(2));
    }

    #[test]
    fn the_longest_directory_takes_13_reads_at_most() {
        let keys: Vec<u16> = (0..8190).map(|at| 2 * at + 1).collect();
        let file = file_with_keys(&keys);
        let mut found_with = [0; 14];
        for &key in &keys {
            let answer = find_by_halving(&file, key);
            assert_eq!(answer.value, Ok(GeoValue::Short(key / 2)), "{key}");
            found_with[answer.reads as usize] += 1;
        }
        // Each read reaches twice as many keys as the one before; 8190 is one short of 2^13 - 1.
        assert_eq!(found_with[..7], [0, 1, 2, 4, 8, 16, 32]);
        assert_eq!(found_with[7..], [64, 128, 256, 512, 1024, 2048, 4095]);
        for key in (0..16380).step_by(2) {
            assert_eq!(find_by_halving(&file, key), missed(13), "{key}");
        }
        assert_eq!(find_by_halving(&file, 16379), found(8189, 12));
        assert_eq!(find_by_halving(&file, 16380), missed(12));
    }

    #[test]
    fn where_keys_rise_the_answer_is_the_plain_lookups() {
        // Good and bad entries of every location, so that 43 to 46 take part.
        let kinds = [
            [0, 1, 9],
            [0, 2, 9],
            [DOUBLES, 1, 1],
            [DOUBLES, 1, 2],
            [DOUBLES, 0, 0],
            [TEXTS, 3, 1],
            [TEXTS, 3, 2],
            [TEXTS, 0, 4],
            [34735, 1, 0],
        ];
        let doubles = (DOUBLES, (0..16).collect());
        for length in 0..40 {
            let entries: Vec<[u16; 4]> = (0..length)
                .zip(kinds.iter().cycle())
                .map(|(at, &[location, count, offset])| [3 * at + 2, location, count, offset])
                .collect();
            let directory = geokey_directory(&entries);
            let all = [directory, doubles.clone(), (TEXTS, b"text".to_vec())];
            for file in [geokey_file(&all), geokey_file(&all[..2])] {
                for key in 0..=3 * length + 3 {
                    let answer = find_by_halving(&file, key);
                    assert_eq!(answer.value, plain(&file, key), "{key} of {length}");
                    let most = length.checked_ilog2().map_or(0, |log| log + 1);
                    assert!(answer.reads <= u64::from(most), "{key} of {length}");
                }
            }
        }
    }

    #[test]
    fn in_a_falling_directory_only_the_middle_key_is_found() {
        let file = file_with_keys(&[30, 20, 10]);
        assert_eq!(find_by_halving(&file, 20), found(1, 1));
        for key in [30, 10] {
            assert_eq!(find_by_halving(&file, key), missed(2), "{key}");
            assert!(plain(&file, key).is_ok(), "{key}");
        }
    }

    #[test]
    fn in_a_directory_out_of_order_a_key_is_found_where_the_halves_lead_to_it() {
        let file = file_with_keys(&[50, 10, 90, 30, 95]);
        for (key, value, reads) in [(90, 2, 1), (10, 1, 2), (95, 4, 2)] {
            assert_eq!(find_by_halving(&file, key), found(value, reads), "{key}");
        }
        assert_eq!(find_by_halving(&file, 50), missed(2));
        assert_eq!(find_by_halving(&file, 30), missed(2));
        assert_eq!(find_by_halving(&file, 5), missed(3));
    }

    #[test]
    fn of_equal_keys_the_one_read_first_counts() {
        for (keys, value, reads) in [
            ([7, 7].as_slice(), 1, 1),
            (&[7, 7, 8], 1, 1),
            (&[5, 7, 7], 1, 1),
            (&[7, 7, 7, 7], 2, 1),
            (&[7, 7, 8, 9], 1, 2),
            (&[5, 6, 7, 7, 9, 9, 9, 9, 9], 2, 2),
        ] {
            let file = file_with_keys(keys);
            assert_eq!(find_by_halving(&file, 7), found(value, reads), "{keys:?}");
        }
    }

    #[test]
    fn doubles_and_texts_are_found_in_their_records() {
        let file = geokey_file(&[
            geokey_directory(&[[10, TEXTS, 4, 4], [20, 0, 1, 9], [30, DOUBLES, 1, 1]]),
            (TEXTS, b"one|two|".to_vec()),
            (DOUBLES, [1.5f64, 2.5].map(f64::to_le_bytes).concat()),
        ]);
        let text = find_by_halving(&file, 10);
        let place = 227 + 54 + 32 + 54 + 4;
        assert_eq!(text.value, Ok(GeoValue::Text { place, length: 4 }));
        assert_eq!(text.reads, 2);
        let double = find_by_halving(&file, 30);
        assert_eq!(double.value, Ok(GeoValue::Double(2.5f64.to_bits())));
        assert_eq!(double.reads, 2);
    }

    #[test]
    fn each_fault_of_an_entry_comes_with_its_reads() {
        for (fault, refusal) in [
            ([34767, 1, 9], Refusal::UnknownLocation),
            ([0, 0, 9], Refusal::WrongCount),
            ([DOUBLES, 2, 0], Refusal::WrongCount),
            ([TEXTS, 1, 0], Refusal::NoParameters),
            ([DOUBLES, 1, 1], Refusal::ValuePastParameters),
        ] {
            // Reads by place in a directory of four.
            for (at, reads) in [(0, 3), (1, 2), (2, 1), (3, 2)] {
                let mut entries = [[10, 0, 1, 0], [20, 0, 1, 1], [30, 0, 1, 2], [40, 0, 1, 3]];
                entries[at][1..].copy_from_slice(&fault);
                let file = geokey_file(&[geokey_directory(&entries), (DOUBLES, vec![0; 15])]);
                let answer = find_by_halving(&file, entries[at][0]);
                assert_eq!(answer, refused(refusal, reads), "{at}");
            }
        }
    }

    #[test]
    fn a_fault_of_an_entry_on_the_way_is_not_looked_at() {
        let entries = [[10, 0, 1, 9], [20, 1, 0, 0], [30, TEXTS, 1, 1]];
        let file = geokey_file(&[geokey_directory(&entries)]);
        assert_eq!(find_by_halving(&file, 10), found(9, 2));
        assert_eq!(find_by_halving(&file, 15), missed(2));
        assert_eq!(find_by_halving(&file, 35), missed(2));
    }

    #[test]
    fn no_directory_and_a_bad_one_have_no_reads() {
        let good = geokey_directory(&[[10, 0, 1, 1], [20, 0, 1, 2]]);
        let short = (DIRECTORY, good.1[..23].to_vec());
        let mut other_version = good.clone();
        other_version.1[0] = 2;
        assert_eq!(
            find_by_halving(&p9_file(), 10),
            refused(Refusal::NoDirectory, 0)
        );
        for bad in [short, other_version, (DIRECTORY, vec![1, 0, 1, 0, 0, 0, 0])] {
            // Only the first directory counts.
            let file = geokey_file(&[bad, good.clone()]);
            assert_eq!(
                find_by_halving(&file, 10),
                refused(Refusal::BadDirectory, 0)
            );
        }
        assert_eq!(find_by_halving(&geokey_file(&[good]), 10), found(1, 2));
    }

    #[test]
    fn faults_of_the_file_come_first_and_have_no_reads() {
        let file = file_with_keys(&[10, 20, 30]);
        let mut bad_scale = file.clone();
        bad_scale[131..139].fill(0);
        for (file, refusal) in [
            ([].as_slice(), Refusal::FileTooSmall),
            (&[0; 227], Refusal::NotLas),
            (&file[..file.len() - 1], Refusal::PointsPastEnd),
            (&bad_scale, Refusal::BadScaling),
            (&p9_file()[..346], Refusal::PointsPastEnd),
        ] {
            assert_eq!(find_by_halving(file, 20), refused(refusal, 0));
        }
        assert_eq!(find_by_halving(&file, 20), found(1, 1));
    }
}

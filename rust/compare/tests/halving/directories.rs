//! Directories on both sides of 40, 41 and 42: absent, not sound, and without the key.

use compare::compared::Compared;
use compare::spec::{RecordSpec, directory, projection};

use super::table::{
    DIRECTORY, DOUBLES, Entry, counting, directory_of, due, entries, file_with, refused, rising,
};

/// The sizes of the directories.
const COUNTS: std::ops::RangeInclusive<usize> = 0..=9;

/// So many keys from 100 on, each ten above the one before, and their entries.
fn tens(count: usize) -> (Vec<u16>, Vec<Entry>) {
    let keys = rising(100, 10, count);
    let entries = entries(&keys);
    (keys, entries)
}

/// The whole directory of these keys answers for each of them, and for those beside, by the due reads.
fn assert_whole(compared: &mut Compared, keys: &[u16], entries: &[Entry]) {
    let file = file_with(vec![directory_of(entries)]);
    for key in keys.iter().flat_map(|&key| [key, key - 1, key ^ 0x100]) {
        assert_eq!(compared.geokey_halve(&file, key), due(keys, key), "{key}");
    }
}

pub fn number_40(compared: &mut Compared) {
    for (keys, entries) in COUNTS.map(tens) {
        let own = directory_of(&entries);
        let mut others = vec![vec![], vec![projection(DOUBLES, vec![1; 16])]];
        for record_id in [DIRECTORY - 1, DIRECTORY + 1, DIRECTORY ^ 0x100, 0] {
            let own = own.clone();
            others.push(vec![RecordSpec { record_id, ..own }]);
        }
        for user in [b"LASF_Projection!", b"LASF_Projectio\0n"] {
            let (user, own) = (*user, own.clone());
            others.push(vec![RecordSpec { user, ..own }]);
        }
        for records in others {
            let answer = compared.geokey_halve(&file_with(records), 100);
            assert_eq!(answer, refused(40, 0), "{keys:?}");
        }
        assert_whole(compared, &keys, &entries);
    }
}

pub fn number_41(compared: &mut Compared) {
    for (keys, entries) in COUNTS.map(tens) {
        let (count, last) = (keys.len(), *keys.last().unwrap_or(&100));
        let whole = directory([1, 1, 0, count as u16], &entries);
        let fronts = (0..whole.len()).map(|length| whole[..length].to_vec());
        let claims = [count + 1, count + 2, count + 256, 8190, 65535];
        let claims = claims.map(|claim| directory([1, 1, 0, claim as u16], &entries));
        let heads = [(0, 0), (0, 2), (0, 257), (1, 0), (1, 257), (2, 1), (2, 256)];
        let heads = heads.map(|(word, other)| {
            let mut head = [1, 1, 0, count as u16];
            head[word] = other;
            directory(head, &entries)
        });
        for payload in fronts.chain(claims).chain(heads) {
            let case = format!("{count} keys in {payload:?}");
            let file = file_with(vec![projection(DIRECTORY, payload)]);
            assert_eq!(compared.geokey_halve(&file, last), refused(41, 0), "{case}");
        }
        assert_whole(compared, &keys, &entries);
    }
}

pub fn number_42(compared: &mut Compared) {
    for key in [0, 99, 100, 65535] {
        for none in [directory_of(&[]), counting(0, &tens(9).1)] {
            let answer = compared.geokey_halve(&file_with(vec![none]), key);
            assert_eq!(answer, refused(42, 0), "no keys, asked for {key}");
        }
    }
    for (keys, entries) in COUNTS.map(tens) {
        let file = file_with(vec![directory_of(&entries)]);
        for &key in &keys {
            for beside in [key - 1, key + 1, key ^ 0x100, key ^ 0x8000] {
                let reads = due(&keys, beside).reads as usize;
                assert!(reads > 0);
                let answer = compared.geokey_halve(&file, beside);
                assert_eq!(answer, refused(42, reads), "{beside} in {keys:?}");
            }
            assert_eq!(compared.geokey_halve(&file, key).number, 0);
        }
    }
}

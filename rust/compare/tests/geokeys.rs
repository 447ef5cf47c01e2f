//! GeoKey lookups: the numbers 40 to 46 and the values found.

use compare::answers::GeoKey;
use compare::compared::{Compared, Function};
use compare::damage::{damage, spoil};
use compare::rng::{Rng, seeds};
use compare::spec::{
    FileSpec, RecordSpec, directory, keys_of, padded, projection, random_geokeys, with_tail,
};

const KEY: u16 = 1024;
const DIRECTORY: u16 = 34735;
const DOUBLES: u16 = 34736;
const TEXTS: u16 = 34737;

fn file_with(records: Vec<RecordSpec>) -> Vec<u8> {
    FileSpec {
        records,
        points: vec![vec![1; 20]],
        ..FileSpec::bare(0)
    }
    .bytes()
}

/// A directory with the one entry for `KEY`.
fn one_entry(location: u16, count: u16, value: u16) -> RecordSpec {
    projection(
        DIRECTORY,
        directory([1, 1, 0, 1], &[[KEY, location, count, value]]),
    )
}

fn find(records: Vec<RecordSpec>) -> GeoKey {
    Compared::new().geokey_find(&file_with(records), KEY)
}

fn found(location: u64, value: u64, length: u64) -> GeoKey {
    GeoKey {
        number: 0,
        location,
        value,
        length,
    }
}

fn refused(number: u64) -> GeoKey {
    GeoKey {
        number,
        ..GeoKey::default()
    }
}

#[test]
fn number_40_is_given_without_a_directory_of_that_cut_name_and_record_id() {
    let entry = || one_entry(0, 1, 9);
    assert_eq!(find(vec![entry()]), found(0, 9, 0));
    assert_eq!(find(vec![]), refused(40));
    for record_id in [DIRECTORY - 1, DIRECTORY + 1, 0, DIRECTORY ^ 0x100] {
        assert_eq!(
            find(vec![RecordSpec {
                record_id,
                ..entry()
            }]),
            refused(40)
        );
    }
    for (user, number) in [
        (b"LASF_Projection\0", 0),
        (b"LASF_Projection ", 0),
        (b"LASF_Projection!", 40),
        (b"LASF_Projectio\0n", 40),
        (b"lasf_projection\0", 40),
        (b"\0ASF_Projection\0", 40),
    ] {
        assert_eq!(
            find(vec![RecordSpec {
                user: *user,
                ..entry()
            }])
            .number,
            number,
            "{user:?}"
        );
    }
}

#[test]
fn number_41_is_given_for_a_head_that_is_not_1_1_0_or_a_payload_too_short() {
    let entries = [[KEY, 0, 1, 9], [KEY + 1, 0, 1, 8]];
    let whole = directory([1, 1, 0, 2], &entries);
    for length in 0..whole.len() {
        let cut = projection(DIRECTORY, &whole[..length]);
        assert_eq!(find(vec![cut]), refused(41), "payload of {length}");
    }
    assert_eq!(find(vec![projection(DIRECTORY, whole)]), found(0, 9, 0));
    let longer = [directory([1, 1, 0, 2], &entries), vec![7; 5]].concat();
    assert_eq!(find(vec![projection(DIRECTORY, longer)]), found(0, 9, 0));
    for head in [
        [0, 1, 0, 1],
        [2, 1, 0, 1],
        [257, 1, 0, 1],
        [1, 0, 0, 1],
        [1, 2, 0, 1],
    ] {
        assert_eq!(
            find(vec![projection(DIRECTORY, directory(head, &entries))]),
            refused(41)
        );
    }
    for head in [
        [1, 257, 0, 1],
        [1, 1, 1, 1],
        [1, 1, 256, 1],
        [1, 1, 0, 3],
        [1, 1, 0, 65535],
    ] {
        assert_eq!(
            find(vec![projection(DIRECTORY, directory(head, &entries))]),
            refused(41)
        );
    }
}

#[test]
fn number_42_is_given_when_no_counted_entry_has_the_key() {
    let entries = [[KEY + 1, 0, 1, 8], [KEY, 0, 1, 9], [KEY, 0, 1, 10]];
    for (keys, answer) in [
        (0, refused(42)),
        (1, refused(42)),
        (2, found(0, 9, 0)),
        (3, found(0, 9, 0)),
    ] {
        let payload = directory([1, 1, 0, keys], &entries);
        assert_eq!(
            find(vec![projection(DIRECTORY, payload)]),
            answer,
            "{keys} keys"
        );
    }
    assert_eq!(
        find(vec![projection(DIRECTORY, directory([1, 1, 0, 0], &[]))]),
        refused(42)
    );
    let near = directory([1, 1, 0, 2], &[[KEY ^ 1, 0, 1, 1], [KEY ^ 0x100, 0, 1, 1]]);
    assert_eq!(find(vec![projection(DIRECTORY, near)]), refused(42));
}

#[test]
fn number_43_is_given_for_every_location_but_three() {
    let mut compared = Compared::new();
    for location in 0..=u16::MAX {
        let answer = compared.geokey_find(&file_with(vec![one_entry(location, 1, 0)]), KEY);
        let number = match location {
            0 => 0,
            DOUBLES | TEXTS => 45,
            _ => 43,
        };
        assert_eq!(answer, refused(number), "location {location}");
    }
}

#[test]
fn number_44_is_given_for_a_count_other_than_1_and_before_45() {
    let doubles = projection(DOUBLES, vec![1; 8]);
    for count in [0, 2, 3, 257, 65535] {
        assert_eq!(find(vec![one_entry(0, count, 5)]), refused(44));
        assert_eq!(find(vec![one_entry(DOUBLES, count, 0)]), refused(44));
        assert_eq!(
            find(vec![one_entry(DOUBLES, count, 0), doubles.clone()]),
            refused(44)
        );
        assert_eq!(find(vec![one_entry(77, count, 0)]), refused(43));
        assert_eq!(find(vec![one_entry(TEXTS, count, 0)]), refused(45));
    }
}

#[test]
fn number_45_is_given_when_the_parameter_record_is_absent() {
    for (location, other) in [(DOUBLES, TEXTS), (TEXTS, DOUBLES)] {
        let other = projection(other, vec![1; 16]);
        let stranger = RecordSpec {
            user: padded(b"LASF_Spec"),
            ..projection(location, vec![1; 16])
        };
        let entry = one_entry(location, 1, 0);
        assert_eq!(find(vec![entry.clone()]), refused(45));
        assert_eq!(
            find(vec![other.clone(), entry.clone(), stranger]),
            refused(45)
        );
        let own = projection(location, vec![1; 16]);
        assert_eq!(find(vec![other, entry, own]).number, 0);
    }
}

#[test]
fn number_46_is_given_when_a_double_ends_one_past_its_record() {
    for doubles in [0, 1, 2, 8191usize] {
        for uneven in [0, 1, 7] {
            let Ok(length) = u16::try_from(8 * doubles + uneven) else {
                continue;
            };
            let payload: Vec<u8> = (0..length)
                .map(|byte| byte.wrapping_mul(37) as u8)
                .collect();
            for offset in [
                0,
                1,
                doubles.saturating_sub(1),
                doubles,
                doubles + 1,
                8191,
                8192,
                65535,
            ] {
                let value = payload.chunks_exact(8).nth(offset);
                let bits = value.map(|bytes| u64::from_le_bytes(bytes.try_into().unwrap()));
                let records = vec![
                    one_entry(DOUBLES, 1, offset as u16),
                    projection(DOUBLES, payload.clone()),
                ];
                let answer = bits.map_or(refused(46), |bits| found(DOUBLES.into(), bits, 0));
                assert_eq!(find(records), answer, "double {offset} of {length} bytes");
            }
        }
    }
}

#[test]
fn number_46_is_given_when_a_text_ends_one_past_its_record() {
    for length in [0, 1, 10, 65535u16] {
        let place = 227 + 54 + 16 + 54;
        for offset in [0, 1, 9, 10, 11, 65534, 65535u16] {
            for count in [0, 1, 2, 9, 10, 11, 65534, 65535u16] {
                let records = vec![
                    one_entry(TEXTS, count, offset),
                    projection(TEXTS, vec![b't'; length.into()]),
                ];
                let fits = u32::from(offset) + u32::from(count) <= length.into();
                let text = found(TEXTS.into(), place + u64::from(offset), count.into());
                let answer = if fits { text } else { refused(46) };
                assert_eq!(find(records), answer, "{count} at {offset} of {length}");
            }
        }
    }
}

#[test]
fn the_first_matching_record_and_the_first_matching_key_count() {
    let bad = projection(DIRECTORY, vec![0; 8]);
    assert_eq!(find(vec![bad.clone(), one_entry(0, 1, 9)]), refused(41));
    assert_eq!(find(vec![one_entry(0, 1, 9), bad]), found(0, 9, 0));
    let (short, long) = (
        projection(DOUBLES, vec![1; 7]),
        projection(DOUBLES, vec![1; 8]),
    );
    let entry = one_entry(DOUBLES, 1, 0);
    assert_eq!(
        find(vec![short.clone(), entry.clone(), long.clone()]),
        refused(46)
    );
    assert_eq!(
        find(vec![long, entry, short]),
        found(34736, 0x0101_0101_0101_0101, 0)
    );
    let entries = [[KEY, 77, 1, 0], [KEY, 0, 1, 9]];
    assert_eq!(
        find(vec![projection(
            DIRECTORY,
            directory([1, 1, 0, 2], &entries)
        )]),
        refused(43)
    );
}

#[test]
fn a_directory_of_8190_keys_is_searched_to_its_end() {
    let entries: Vec<[u16; 4]> = (0..8190).map(|key| [key, 0, 1, key ^ 0x5555]).collect();
    let file = file_with(vec![projection(
        DIRECTORY,
        directory([1, 1, 0, 8190], &entries),
    )]);
    let mut compared = Compared::new();
    for key in [0, 1, 4095, 8188, 8189] {
        assert_eq!(
            compared.geokey_find(&file, key),
            found(0, u64::from(key ^ 0x5555), 0)
        );
    }
    assert_eq!(compared.geokey_find(&file, 8190), refused(42));
}

#[test]
fn random_directories_sound_and_damaged_give_equal_answers() {
    for seed in seeds() {
        let mut rng = Rng::new(seed);
        let mut compared = Compared::new();
        for round in 0..12_000 {
            let mut spec = FileSpec::random(&mut rng);
            spec.records.splice(0..0, random_geokeys(&mut rng));
            if rng.chance(10) {
                let name = rng.pick(&[b"LASF_Projection".as_slice(), b"LASF_Projectio"]);
                let place = rng.below(spec.records.len().max(1));
                if let Some(record) = spec.records.get_mut(place) {
                    record.user = with_tail(&mut rng, name);
                }
            }
            let mut file = spec.bytes();
            if rng.chance(20) {
                damage(&mut rng, &mut file);
            }
            compared.case(format!("seed {seed}, file {round}"));
            for key in keys_of(&spec.records).into_iter().chain([KEY, 0, 65535]) {
                compared.geokey_find(&file, key);
            }
        }
        for number in 1..=10 {
            let mut file = file_with(vec![one_entry(0, 1, 9)]);
            spoil(&mut file, number);
            assert_eq!(compared.geokey_find(&file, KEY), refused(number));
        }
        compared.assert_all_reached(&[Function::GeoKeyFind, Function::GeoKeyHalve]);
    }
}

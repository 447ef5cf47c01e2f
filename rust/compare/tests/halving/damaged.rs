//! Damaged directories and files: every byte of a directory, every front of a file, and random damages.

use compare::answers::GeoKeyRead;
use compare::compared::{Compared, Function};
use compare::damage::damage;
use compare::rng::{Rng, seeds};
use compare::spec::{FileSpec, directory, keys_of, projection, random_geokeys};

use super::table::{DIRECTORY, DOUBLES, Entry, TEXTS, entries, file_with, halved, refused};

const KEYS: [u16; 5] = [0x0110, 0x0120, 0x0210, 0x0220, 0x0310];

/// The four numbers of a directory's head or of an entry.
type Numbers = [u16; 4];

/// What a directory of these numbers answers, the head first; there are no parameter records.
fn due_of(numbers: &[Numbers], key: u16) -> GeoKeyRead {
    let ([1, 1, 0, count], entries) = (numbers[0], &numbers[1..]) else {
        return refused(41, 0);
    };
    let Some(counted) = entries.get(..count.into()) else {
        return refused(41, 0);
    };
    let keys: Vec<u16> = counted.iter().map(|entry| entry[0]).collect();
    let (place, reads) = halved(&keys, key);
    match place.map(|place| counted[place]) {
        None => refused(42, reads),
        Some([_, 0, 1, value]) => GeoKeyRead {
            value: value.into(),
            ..refused(0, reads)
        },
        Some([_, DOUBLES, 1, _] | [_, TEXTS, ..]) => refused(45, reads),
        Some([_, 0 | DOUBLES, ..]) => refused(44, reads),
        Some(_) => refused(43, reads),
    }
}

/// The numbers that a payload of whole ones has.
fn numbers_in(payload: &[u8]) -> Vec<Numbers> {
    let number = |four: &[u8], at: usize| u16::from_le_bytes([four[2 * at], four[2 * at + 1]]);
    let four = |four: &[u8]| std::array::from_fn(|at| number(four, at));
    payload.chunks_exact(8).map(four).collect()
}

#[test]
fn every_byte_of_a_directory_matters_as_it_is_written_here() {
    let mut compared = Compared::new();
    let mut own: Vec<Entry> = entries(&KEYS);
    own[3] = [KEYS[3], DOUBLES, 1, 0];
    let whole = directory([1, 1, 0, 5], &own);
    for place in 0..whole.len() {
        for byte in 0..=255 {
            let mut payload = whole.clone();
            payload[place] = byte;
            let due = |key| due_of(&numbers_in(&payload), key);
            let file = file_with(vec![projection(DIRECTORY, payload.clone())]);
            for key in KEYS.into_iter().chain([0x0111, 0x0320]) {
                let case = format!("{byte} at {place}, asked for {key}");
                compared.case(&case);
                assert_eq!(compared.geokey_halve(&file, key), due(key), "{case}");
            }
        }
    }
}

#[test]
fn every_front_of_a_file_answers_alike() {
    let mut compared = Compared::new();
    let texts = projection(TEXTS, b"some text".as_slice());
    let own = [[10, TEXTS, 4, 5], [20, 0, 1, 9], [30, DOUBLES, 1, 0]];
    let file = file_with(vec![
        projection(DIRECTORY, directory([1, 1, 0, 3], &own)),
        texts,
    ]);
    let mut given = Vec::new();
    for length in 0..=file.len() {
        compared.case(format!("{length} bytes"));
        for key in [10, 20, 30, 40] {
            given.push(compared.geokey_halve(&file[..length], key).number);
        }
    }
    given.dedup();
    // Too short for a header, for the points' place, for the points, and whole.
    assert_eq!(given, [1, 7, 9, 0, 45, 42]);
}

#[test]
fn every_byte_of_a_file_changed_answers_alike() {
    let mut compared = Compared::new();
    let own = [[10, TEXTS, 4, 5], [20, 0, 1, 9], [30, DOUBLES, 1, 0]];
    let file = file_with(vec![
        projection(DIRECTORY, directory([1, 1, 0, 3], &own)),
        projection(TEXTS, b"some text".as_slice()),
        projection(DOUBLES, vec![1; 8]),
    ]);
    for place in 0..file.len() {
        for byte in [
            0,
            1,
            2,
            3,
            127,
            128,
            255,
            file[place] ^ 1,
            file[place] ^ 128,
        ] {
            let mut damaged = file.clone();
            damaged[place] = byte;
            compared.case(format!("{byte} at {place}"));
            for key in [10, 20, 30, 40] {
                compared.geokey_lookups(&damaged, key);
            }
        }
    }
}

#[test]
fn random_files_with_random_damages_answer_alike() {
    for seed in seeds() {
        let (mut rng, mut compared) = (Rng::new(seed), Compared::new());
        for round in 0..8_000 {
            let mut spec = FileSpec::random(&mut rng);
            spec.records.splice(0..0, random_geokeys(&mut rng));
            let mut file = spec.bytes();
            if rng.chance(40) {
                damage(&mut rng, &mut file);
            }
            compared.case(format!("seed {seed}, file {round}"));
            let number = compared.check_file(&file);
            for key in keys_of(&spec.records).into_iter().chain([1026, 0, 65535]) {
                let answer = compared.geokey_halve(&file, key);
                let refused_by_file = answer == refused(number, 0);
                assert_eq!(refused_by_file, number != 0, "seed {seed}, file {round}");
            }
        }
        compared.assert_all_reached(&[Function::GeoKeyHalve]);
    }
}

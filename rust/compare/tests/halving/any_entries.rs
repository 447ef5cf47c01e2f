//! Random directories with entries of any kind: each is answered as it would be alone.

use compare::answers::GeoKey;
use compare::compared::Compared;
use compare::rng::{Rng, seeds};
use compare::spec::{FileSpec, RecordSpec, projection};

use super::random::random_keys;
use super::table::{DOUBLES, Entry, TEXTS, around, counting, directory_of, halved, refused, rise};

/// The fields of an entry behind its key, often such as give 43 to 46 or point to the end of a parameter record.
fn random_fields(rng: &mut Rng) -> [u16; 3] {
    let count = rng.pick(&[1, 1, 1, 1, 0, 2, 65535]);
    match rng.below(10) {
        0..4 => [0, count, rng.next() as u16],
        4..6 => [DOUBLES, count, rng.pick(&[0, 1, 2, 3, 8191, 65535])],
        6..9 => {
            let length = rng.pick(&[0, 1, 5, 10, 20, 21, 65535]);
            [TEXTS, length, rng.pick(&[0, 1, 10, 20, 21, 65535])]
        }
        _ => [rng.pick(&[1, 34735, 34738, 34767, 65535]), count, 0],
    }
}

/// Some of the parameter records, with three doubles at most and 20 bytes of text at most.
fn random_parameters(rng: &mut Rng) -> Vec<RecordSpec> {
    let mut records = Vec::new();
    for (record_id, most) in [(DOUBLES, 24), (TEXTS, 20)] {
        if rng.chance(85) {
            let length = rng.pick(&[most, most, most, most - 1, 0]);
            records.push(projection(record_id, rng.bytes(length)));
        }
    }
    records
}

/// The entries of a directory, and the records around it.
struct Case {
    entries: Vec<Entry>,
    before: Vec<RecordSpec>,
    parameters: Vec<RecordSpec>,
}

impl Case {
    fn random(rng: &mut Rng, keys: &[u16]) -> Self {
        let fields = keys.iter().map(|&key| (key, random_fields(rng)));
        Self {
            entries: fields.map(|(key, [a, b, c])| [key, a, b, c]).collect(),
            before: vec![projection(7, b"before".as_slice()); rng.below(3)],
            parameters: random_parameters(rng),
        }
    }

    /// The file with this directory among the records.
    fn file(&self, directory: RecordSpec) -> Vec<u8> {
        FileSpec {
            records: [&self.before, &[directory][..], &self.parameters].concat(),
            ..FileSpec::common(2)
        }
        .bytes()
    }

    /// What the plain lookup gives for one entry alone. The directory counts that one, and is as long as the whole, so
    /// that texts have the same places.
    fn alone(&self, compared: &mut Compared, place: usize) -> GeoKey {
        let mut entries = self.entries.clone();
        entries.swap(0, place);
        let file = self.file(counting(1, &entries));
        compared.geokey_find(&file, entries[0][0])
    }
}

/// Asks for a key in both ways; the answer by halving is that of the entry it comes to, beside the due reads. Gives its
/// number, and whether the plain lookup has another answer.
fn assert_as_alone(compared: &mut Compared, case: &Case, keys: &[u16], key: u16) -> (u64, bool) {
    let file = case.file(directory_of(&case.entries));
    let (plain, halving) = compared.geokey_lookups(&file, key);
    let (place, reads) = halved(keys, key);
    let missed = refused(42, 0).geokey();
    let due = place.map_or(missed, |place| case.alone(compared, place));
    assert_eq!(halving.geokey(), due, "key {key} of {keys:?}");
    assert_eq!(halving.reads, reads as u64, "key {key} of {keys:?}");
    let same = halving.geokey() == plain;
    assert!(same || !rise(keys), "key {key} of {keys:?}");
    (halving.number, !same)
}

#[test]
fn entries_of_any_kind_are_answered_as_each_would_be_alone_beside_its_reads() {
    for seed in seeds() {
        let (mut rng, mut compared) = (Rng::new(seed), Compared::new());
        // How often each number was given, and how often the plain lookup had another answer.
        let (mut given, mut others) = ([0; 47], 0);
        for round in 0..1_500 {
            let keys = random_keys(&mut rng, 24);
            let case = Case::random(&mut rng, &keys);
            compared.case(format!("seed {seed}, file {round}"));
            for key in around(&keys) {
                let (number, other) = assert_as_alone(&mut compared, &case, &keys, key);
                given[number as usize] += 1;
                others += u32::from(other);
            }
        }
        let reached = [0, 42, 43, 44, 45, 46].map(|number| given[number]);
        assert!(reached.iter().all(|&times| times > 100), "{reached:?}");
        assert!(others > 100, "{others}");
    }
}

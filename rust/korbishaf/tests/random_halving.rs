//! Lookups by halving in random directories, from a fixed seed, against what is worked out while they are made; and in
//! damaged files, against the plain lookup.

mod directory;

use directory::{DOUBLES, Projection, TEXTS, directory, file};
use korbishaf::{GeoKeyValue, geokey, geokey_by_halving};
use std::cmp::Ordering;
use std::collections::BTreeSet;

/// How many directories are made.
const DIRECTORIES: usize = 5000;

/// What the record of texts has, and how many doubles there are.
const TEXT: &[u8] = b"a text\0 and\xFF more  ";
const DOUBLE_COUNT: u16 = 3;

/// Random numbers (SplitMix64).
struct Random(u64);

impl Random {
    fn next(&mut self) -> u64 {
        self.0 = self.0.wrapping_add(0x9E37_79B9_7F4A_7C15);
        let mixed = (self.0 ^ (self.0 >> 30)).wrapping_mul(0xBF58_476D_1CE4_E5B9);
        let mixed = (mixed ^ (mixed >> 27)).wrapping_mul(0x94D0_49BB_1331_11EB);
        mixed ^ (mixed >> 31)
    }

    fn below(&mut self, limit: usize) -> usize {
        (self.next() % limit as u64) as usize
    }

    /// Keys in any order, some of them equal, or rising strictly.
    fn keys(&mut self) -> Vec<u16> {
        let (count, rising) = (self.below(40), self.below(2) == 0);
        let keys = (0..count).map(|_| self.below(60) as u16);
        if rising {
            return keys.collect::<BTreeSet<_>>().into_iter().collect();
        }
        keys.collect()
    }

    /// An entry of a key, without the key, and what is found for it where doubles and texts are there.
    fn entry(&mut self) -> ([u16; 3], Result<Value, u64>) {
        let some = self.below(8) as u16;
        match self.below(8) {
            0 => ([1, 1, some], Err(43)),
            1 => ([[0, DOUBLES][self.below(2)], 2, some], Err(44)),
            2 | 3 => ([0, 1, some], Ok(Value::Short(some))),
            4 | 5 if some < DOUBLE_COUNT => ([DOUBLES, 1, some], Ok(Value::Double(some))),
            4 | 5 => ([DOUBLES, 1, some], Err(46)),
            _ => {
                let count = (TEXT.len() - usize::from(some) - self.below(2)) as u16;
                ([TEXTS, count, some], Ok(Value::Text(some, count)))
            }
        }
    }
}

/// A value as a directory has it: a short, the number of a double, or place and length of a text.
#[derive(Clone, Copy)]
enum Value {
    Short(u16),
    Double(u16),
    Text(u16, u16),
}

impl Value {
    fn found(self) -> GeoKeyValue<'static> {
        match self {
            Value::Short(short) => GeoKeyValue::Short(short),
            Value::Double(number) => GeoKeyValue::Double(f64::from(number) + 0.5),
            Value::Text(start, count) => {
                GeoKeyValue::Text(&TEXT[usize::from(start)..][..usize::from(count)])
            }
        }
    }
}

/// The records of doubles and of texts.
fn parameters() -> [Projection; 2] {
    let doubles = (0..DOUBLE_COUNT).flat_map(|number| (f64::from(number) + 0.5).to_le_bytes());
    [(DOUBLES, doubles.collect()), (TEXTS, TEXT.to_vec())]
}

/// The place of the entry that halving finds among these keys, and the entries that it reads: the definition, word for
/// word.
fn halve(keys: &[u16], key: u16) -> (Option<usize>, u64) {
    let middle = keys.len() / 2;
    let Some(read) = keys.get(middle) else {
        return (None, 0);
    };
    let (found, reads) = match read.cmp(&key) {
        Ordering::Equal => (Some(middle), 0),
        Ordering::Greater => halve(&keys[..middle], key),
        Ordering::Less => {
            let (found, reads) = halve(&keys[middle + 1..], key);
            (found.map(|place| place + middle + 1), reads)
        }
    };
    (found, reads + 1)
}

#[test]
fn random_directories() {
    let mut random = Random(6);
    let mut numbers = BTreeSet::new();
    let mut differing = 0;
    for _ in 0..DIRECTORIES {
        let keys = random.keys();
        let (entries, answers): (Vec<_>, Vec<_>) = keys.iter().map(|_| random.entry()).unzip();
        let rows = keys.iter().zip(entries);
        let rows: Vec<_> = rows.map(|(&key, [a, b, c])| [key, a, b, c]).collect();
        let [doubles, texts] = parameters();
        let file = file(&[doubles, directory(&rows), texts]);
        let rising = keys.is_sorted_by(|before, key| before < key);
        for key in 0..=60 {
            let (place, reads) = halve(&keys, key);
            let wanted = place.map_or(Err(42), |place| answers[place].map(Value::found));
            let found = geokey_by_halving(&file, key);
            let value = found.value.map_err(|refused| refused.number());
            assert_eq!((value, found.reads), (wanted, reads), "{key} in {rows:?}");
            numbers.insert(value.err().unwrap_or(0));
            let same = found.value == geokey(&file, key);
            assert!(same || !rising, "{key} in {rows:?}");
            differing += usize::from(!same);
        }
    }
    assert_eq!(numbers, BTreeSet::from([0, 42, 43, 44, 46]));
    assert!(differing > DIRECTORIES, "{differing}");
}

/// A random file with some bytes changed, or cut short.
fn damaged(random: &mut Random) -> Vec<u8> {
    let keys = random.keys();
    let rows = keys.iter().map(|&key| {
        let ([location, count, value], _) = random.entry();
        [key, location, count, value]
    });
    let rows: Vec<_> = rows.collect();
    let [doubles, texts] = parameters();
    let mut file = file(&[texts, directory(&rows), doubles]);
    for _ in 0..random.below(6) {
        let place = [0, 227][random.below(2)];
        let place = place + random.below(file.len() - place);
        file[place] = [0, 1, 0x20, 0x87, 0xB0, 0xFF, random.next() as u8][random.below(7)];
    }
    if random.below(20) == 0 {
        file.truncate(random.below(file.len()));
    }
    file
}

/// What holds of any file: numbers of the file and of its directory are those of the plain lookup, with no reads beside
/// them, and a key is found only where the plain lookup finds one. Returns the number.
fn try_key(file: &[u8], key: u16) -> u64 {
    let number = |value: Result<GeoKeyValue<'_>, korbishaf::Error>| {
        value.map_or_else(|refused| refused.number(), |_| 0)
    };
    let found = geokey_by_halving(file, key);
    let (halved, plain) = (number(found.value), number(geokey(file, key)));
    assert!(found.reads <= 13);
    match halved {
        1..=10 | 40 | 41 => assert_eq!((plain, found.reads), (halved, 0)),
        42 => assert!(plain == 0 || plain >= 42),
        0 | 43..=46 => {
            assert!(plain == 0 || plain >= 43, "{plain}");
            assert!(found.reads > 0);
        }
        other => panic!("{other}"),
    }
    halved
}

#[test]
fn damaged_files() {
    let mut random = Random(66);
    let mut numbers = BTreeSet::new();
    for _ in 0..10 * DIRECTORIES {
        let file = damaged(&mut random);
        for _ in 0..4 {
            let key = random.below(60) as u16;
            numbers.insert(try_key(&file, key));
        }
        numbers.insert(try_key(&file, random.next() as u16));
    }
    let all: BTreeSet<u64> = (0..=10).chain(40..=46).collect();
    assert_eq!(numbers, all);
}

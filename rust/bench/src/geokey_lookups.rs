//! GeoKey lookups in the largest directory: the last of its keys, found plainly and by halving, beside the check of the
//! file that both make first.

use std::hint::black_box;
use std::time::Duration;

use compare::spec::{FileSpec, directory, projection};
use korbishaf::sys::{las_geokey, las_geokey_read};
use las_plain::{GeoValue, LasFile};

use crate::builds::Builds;
use crate::each;
use crate::library::{Halver, Library};
use crate::table::Table;
use crate::timing::{Side, medians, ratio, time};

const ROUNDS: usize = 101;
/// How often a key is looked up in one turn.
const LOOKUPS: usize = 1_000;
/// As many keys as a record has room for.
const KEYS: u16 = 8190;
const LAST_KEY: u16 = KEYS - 1;
/// The value of the last key.
const VALUE: u16 = 7;

/// The medians of each side: las_plain, ours and, where there is one that has the function, an earlier build.
struct Medians {
    check: Vec<Duration>,
    plain: Vec<Duration>,
    halving: Vec<Duration>,
}

/// Times lookups, and prints the figures.
pub fn compare(builds: &Builds) {
    println!(
        "lookups: medians in ns for the last of {KEYS} keys, and what ours takes of the others' times"
    );
    let before = builds.before.is_some();
    let table = each::start(before);
    let file = file();
    assert_same(builds, &file);
    print(&table, &Medians::find(builds, &file), before);
}

fn print(table: &Table, found: &Medians, before: bool) {
    table.row(&each::cells("check_file", LOOKUPS, &found.check));
    table.row(&each::cells("plain", LOOKUPS, &found.plain));
    let lacking = before && found.halving.len() == 2;
    let halving = if lacking {
        each::cells_without_before
    } else {
        each::cells
    };
    table.row(&halving("halving", LOOKUPS, &found.halving));
    let both = found.plain.iter().zip(&found.halving);
    let times = both.map(|(&plain, &halving)| ratio(plain, halving));
    table.row(&each::figures("plain/halving", times));
}

impl Medians {
    /// All sides take turns in every round, so that the figures of one run may be set against each other.
    fn find(builds: &Builds, file: &[u8]) -> Self {
        let halvers: Vec<Halver> = builds.all().filter_map(Library::halver).collect();
        let mut all = checks(builds, file);
        all.extend(plain_lookups(builds, file));
        let two = all.len();
        all.extend(lookups_by_halving(&halvers, file));
        let mut times = medians(ROUNDS, &all, &mut []);
        let halving = times.split_off(two);
        let plain = times.split_off(two / 2);
        Self {
            check: times,
            plain,
            halving,
        }
    }
}

/// A file with one directory of keys that rise, and no points.
fn file() -> Vec<u8> {
    let entries: Vec<[u16; 4]> = (0..KEYS).map(|key| [key, 0, 1, VALUE]).collect();
    let payload = directory([1, 1, 0, KEYS], &entries);
    FileSpec {
        records: vec![projection(34735, payload)],
        ..FileSpec::bare(1)
    }
    .bytes()
}

/// The check by las_plain, then by each build.
fn checks<'a>(builds: &'a Builds, file: &'a [u8]) -> Vec<Side<'a>> {
    let plain = side(move || {
        black_box(las_plain::check_file(black_box(file))).ok();
    });
    let builds = builds.all().map(|build| {
        side(move || {
            black_box(build.check_file(black_box(file)));
        })
    });
    [plain].into_iter().chain(builds).collect()
}

/// The plain lookup by las_plain, then by each build.
fn plain_lookups<'a>(builds: &'a Builds, file: &'a [u8]) -> Vec<Side<'a>> {
    let plain = side(move || {
        black_box(find(black_box(file)));
    });
    let builds = builds.all().map(|build| {
        side(move || {
            black_box(build.geokey_find(black_box(file), LAST_KEY));
        })
    });
    [plain].into_iter().chain(builds).collect()
}

/// The lookup by halving of las_plain, then that of each build that has it.
fn lookups_by_halving<'a>(halvers: &'a [Halver], file: &'a [u8]) -> Vec<Side<'a>> {
    let plain = side(move || {
        black_box(las_plain::find_by_halving(black_box(file), LAST_KEY));
    });
    let builds = halvers.iter().map(|halver| {
        side(move || {
            black_box(halver.geokey_halve(black_box(file), LAST_KEY));
        })
    });
    [plain].into_iter().chain(builds).collect()
}

/// The plain lookup by las_plain.
fn find(file: &[u8]) -> Option<GeoValue> {
    LasFile::open(file)
        .and_then(|file| file.geokey(LAST_KEY))
        .ok()
}

/// A side that makes a call over and over.
fn side<'a>(call: impl Fn() + 'a) -> Side<'a> {
    Box::new(move |_| time(|| (0..LOOKUPS).for_each(|_| call())))
}

/// Asserts that all sides pass the file and find the last key.
fn assert_same(builds: &Builds, file: &[u8]) {
    let halving = las_plain::find_by_halving(file, LAST_KEY);
    assert_eq!(find(file), Some(GeoValue::Short(VALUE)));
    assert_eq!(halving.value, Ok(GeoValue::Short(VALUE)));
    let value = VALUE.into();
    let plain = las_geokey {
        value,
        ..las_geokey::default()
    };
    let read = las_geokey_read {
        value,
        reads: halving.reads,
        ..las_geokey_read::default()
    };
    for build in builds.all() {
        assert_eq!(build.check_file(file), 0);
        assert_eq!(build.geokey_find(file, LAST_KEY), plain);
        let halver = build.halver();
        assert!(halver.is_none_or(|halver| halver.geokey_halve(file, LAST_KEY) == read));
    }
}

#[cfg(test)]
mod tests {
    use super::*;

    #[test]
    fn the_last_key_is_found_on_all_sides_after_12_reads() {
        let file = file();
        let builds = Builds::asked_for(&[]).expect("the linked build is there");
        assert_same(&builds, &file);
        assert_eq!(las_plain::find_by_halving(&file, LAST_KEY).reads, 12);
        let halver = builds.ours.halver().expect("ours halves");
        assert_eq!(halver.geokey_halve(&file, KEYS).number, 42);
    }
}

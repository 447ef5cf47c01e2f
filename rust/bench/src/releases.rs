//! Releases of whole files: each side's median, and that all sides release the same.

use std::hint::black_box;
use std::time::Duration;

use korbishaf::sys::las_released;

use crate::builds::Builds;
use crate::cases::{Output, rounds};
use crate::library::Library;
use crate::sample::{SHEET, Sample};
use crate::timing::{Side, medians, time};

/// One case with its medians.
pub struct Row {
    pub sample: Sample,
    pub output: Output,
    pub medians: Medians,
}

/// The median of each side.
pub struct Medians {
    /// Of a copy of the file's bytes.
    pub copy: Duration,
    pub plain: Duration,
    pub ours: Duration,
    pub before: Option<Duration>,
}

/// Times the releases of one file: into an output of its length, and into one of the released length unless that is the
/// same.
pub fn rows(builds: &Builds, sample: Sample) -> Vec<Row> {
    let file = sample.file();
    let mut room = vec![0; file.len()];
    let exact = assert_same(builds, &file, &mut room);
    let mut outputs = vec![(Output::File, file.len())];
    if exact < file.len() {
        assert_same(builds, &file, &mut room[..exact]);
        outputs.push((Output::Exact, exact));
    }
    let rounds = rounds(sample.points);
    let row = |(output, length)| Row {
        sample,
        output,
        medians: compare(builds, &file, length, rounds, &mut room),
    };
    outputs.into_iter().map(row).collect()
}

/// Times all sides with an output of this length, the front of the room.
fn compare(builds: &Builds, file: &[u8], length: usize, rounds: usize, room: &mut [u8]) -> Medians {
    let mut sides = vec![copy(file), plain(file, &SHEET, length)];
    let libraries = builds
        .all()
        .map(|build| library(build, file, &SHEET, length));
    sides.extend(libraries);
    let found = medians(rounds, &sides, room);
    Medians {
        copy: found[0],
        plain: found[1],
        ours: found[2],
        before: found.get(3).copied(),
    }
}

/// A copy takes the whole room, however long the output is.
fn copy(file: &[u8]) -> Side<'_> {
    Box::new(move |room| {
        room.fill(0);
        time(|| black_box(room).copy_from_slice(black_box(file)))
    })
}

/// The release by las_plain, into an output of this length.
pub fn plain<'a>(file: &'a [u8], sheet: &'a [u8], length: usize) -> Side<'a> {
    Box::new(move |room| {
        let out = cleared(room, length);
        time(|| {
            black_box(las_plain::release(black_box(file), sheet, out)).ok();
        })
    })
}

/// The release by a build, into an output of this length.
pub fn library<'a>(build: &'a Library, file: &'a [u8], sheet: &'a [u8], length: usize) -> Side<'a> {
    Box::new(move |room| {
        let out = cleared(room, length);
        time(|| {
            black_box(build.release(black_box(file), sheet, out));
        })
    })
}

/// The output, with nothing left in it of the run before.
fn cleared(room: &mut [u8], length: usize) -> &mut [u8] {
    let out = &mut room[..length];
    out.fill(0);
    out
}

/// Asserts that all sides give the same numbers and the same output, whatever was in it; gives the released length.
fn assert_same(builds: &Builds, file: &[u8], out: &mut [u8]) -> usize {
    let mut expected = vec![0x77; out.len()];
    let plain = las_plain::release(file, &SHEET, &mut expected).expect("the file is released");
    let numbers = las_released {
        number: 0,
        length: plain.length,
        points: plain.points,
        records: plain.records,
    };
    for build in builds.all() {
        out.fill(0xEE);
        assert_eq!(build.release(file, &SHEET, out), numbers);
        assert!(*out == *expected, "the outputs differ");
    }
    plain.length as usize
}

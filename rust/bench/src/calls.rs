//! Single calls: the file checks, and decoding and encoding of points.

use std::hint::black_box;

use crate::builds::Builds;
use crate::cases::COMMON;
use crate::each;
use crate::library::Library;
use crate::sample::HEADER;
use crate::timing::{Side, medians, time};

const ROUNDS: usize = 9;
/// How often a file is checked in one turn.
const CHECKS: usize = 100_000;
const FORMAT: u8 = COMMON.format;
const LENGTH: usize = COMMON.record_length();

/// Times checks, decoding and encoding, and prints the figures.
pub fn compare(builds: &Builds) {
    let file = COMMON.file();
    let points = &file[HEADER..];
    assert_passes(builds, &file);
    assert_round_trips(builds, &points[..1_000 * LENGTH]);
    println!("single calls: medians in ns for each, and what ours takes of the others' times");
    let table = each::start(builds.before.is_some());
    let print = |name, count, sides: Vec<Side>| {
        let times = medians(ROUNDS, &sides, &mut points.to_vec());
        table.row(&each::cells(name, count, &times));
    };
    let checks = sides(
        builds,
        |_| check_plain(&file),
        |build, _| check(build, &file),
    );
    print("check_file", CHECKS, checks);
    let decodes = sides(builds, decode_plain, decode);
    print("decode", COMMON.points, decodes);
    let encodes = sides(builds, encode_plain, encode);
    print("encode", COMMON.points, encodes);
}

/// las_plain, then each build; the room of a turn holds point records.
fn sides<'a>(
    builds: &'a Builds,
    plain: impl Fn(&mut [u8]) + 'a,
    library: impl Fn(&Library, &mut [u8]) + Copy + 'a,
) -> Vec<Side<'a>> {
    let mut sides: Vec<Side> = vec![Box::new(move |room| time(|| plain(room)))];
    for build in builds.all() {
        sides.push(Box::new(move |room| time(|| library(build, room))));
    }
    sides
}

fn check(build: &Library, file: &[u8]) {
    for _ in 0..CHECKS {
        black_box(build.check_file(black_box(file)));
    }
}

fn check_plain(file: &[u8]) {
    for _ in 0..CHECKS {
        black_box(las_plain::check_file(black_box(file))).ok();
    }
}

fn decode(build: &Library, points: &mut [u8]) {
    for point in points.chunks_exact(LENGTH) {
        black_box(build.decode(FORMAT, black_box(point)));
    }
}

fn decode_plain(points: &mut [u8]) {
    for point in points.chunks_exact(LENGTH) {
        black_box(las_plain::decode(FORMAT, LENGTH as u16, black_box(point))).ok();
    }
}

/// Encodes the fields of the first point into every record. As on the other side, the fields stand in memory; here the
/// call itself hands them over by value.
fn encode(build: &Library, room: &mut [u8]) {
    let point = build.decode(FORMAT, &room[..LENGTH]);
    for record in room.chunks_exact_mut(LENGTH) {
        black_box(build.encode(FORMAT, *black_box(&point), record));
    }
}

fn encode_plain(room: &mut [u8]) {
    let point = las_plain::decode(FORMAT, LENGTH as u16, &room[..LENGTH]);
    let point = point.expect("the point decodes");
    for record in room.chunks_exact_mut(LENGTH) {
        black_box(las_plain::encode(
            FORMAT,
            LENGTH as u16,
            black_box(&point),
            record,
        ))
        .ok();
    }
}

/// Asserts that the file passes on every side.
fn assert_passes(builds: &Builds, file: &[u8]) {
    las_plain::check_file(file).expect("the file passes");
    for build in builds.all() {
        assert_eq!(build.check_file(file), 0);
    }
}

/// Asserts that on every side a point that is decoded and encoded has its bytes again.
fn assert_round_trips(builds: &Builds, points: &[u8]) {
    for point in points.chunks_exact(LENGTH) {
        let mut room = [0; LENGTH];
        let fields = las_plain::decode(FORMAT, LENGTH as u16, point).expect("the point decodes");
        las_plain::encode(FORMAT, LENGTH as u16, &fields, &mut room).expect("the point encodes");
        assert_eq!(room, *point);
        for build in builds.all() {
            let mut room = [0; LENGTH];
            let fields = build.decode(FORMAT, point);
            assert_eq!(
                (fields.number, build.encode(FORMAT, fields, &mut room)),
                (0, 0)
            );
            assert_eq!(room, *point);
        }
    }
}

//! Both ways of our build as files grow, in points and in records: the time for each.

use super::assert_same;
use super::times::times;
use super::ways::{OfBuild, OfPlain};
use crate::cases::{COMMON, SIZES, rounds};
use crate::each::figures;
use crate::growth::{GROWTH, ratios};
use crate::library::Library;
use crate::records;
use crate::sample::{SHEET, Sample};
use crate::table::Table;
use crate::timing::per_item;

/// How many records files have by which growth is judged.
const RECORDS: [usize; 2] = [1_000, 100_000];
const RECORD_ROUNDS: usize = 101;
/// The name of the row that says by how much the time for each record grows.
const RECORD_GROWTH: &str = "10^5 / 10^3";

const HEADS: [&str; 5] = [
    "               ",
    "   release",
    "      list",
    "   by list",
    "  2nd pass",
];

/// Prints the times on files of more and more points, and of more and more records.
pub fn print(ours: &Library) {
    println!("lists as files grow: ours, medians in ns for each point or record");
    let table = Table::start(&HEADS);
    let row = |name: String, each: [f64; 4]| {
        table.row(&figures(&name, each));
        each
    };
    let [_, small, _, large] = SIZES.map(|points| {
        let file = Sample { points, ..COMMON }.file();
        let each = each_item(ours, &file, &SHEET, points, rounds(points));
        row(format!("{points} points"), each)
    });
    table.row(&figures(GROWTH, ratios(&large, &small)));
    let [few, many] = RECORDS.map(|count| {
        let (file, sheet) = (records::file(count, 0), records::sheet(0));
        let each = each_item(ours, &file, &sheet, count, RECORD_ROUNDS);
        row(format!("{count} records"), each)
    });
    table.row(&figures(RECORD_GROWTH, ratios(&many, &few)));
}

/// Nanoseconds for each of so many points or records; the list has a line for each.
fn each_item(ours: &Library, file: &[u8], sheet: &[u8], items: usize, rounds: usize) -> [f64; 4] {
    let ways = OfBuild::new(ours, items).expect("ours makes lists");
    let plain = OfPlain::new(items);
    assert_same(&[&plain, &ways], file, sheet);
    drop(plain);
    let times = times(rounds, &[&ways], file, sheet)[0];
    let second_pass = times.second_pass();
    [times.release, times.list, times.by_list, second_pass].map(|time| per_item(time, items))
}

//! Cutting lists and releases by them, beside releases of the first way: on the common file, and as files grow.

mod growth;
pub mod times;
pub mod ways;

use std::time::Duration;

use korbishaf::sys::las_released;

use crate::builds::Builds;
use crate::cases::{COMMON, rounds};
use crate::each::figures;
use crate::sample::SHEET;
use crate::table::Table;
use crate::timing::{milliseconds, ratio};

use times::{Times, times};
use ways::{OfBuild, OfPlain, Ways};

// The pass of the second way that writes is to take at most 3 times the first way's. The last column has that, each
// without what it does before it writes; `by list/release` has the whole of the second way against the whole of the
// first.
const HEADS: [&str; 10] = [
    "           ",
    "   release",
    "      list",
    "   by list",
    "  1st pass",
    "  2nd pass",
    "  list/release",
    "  by list/release",
    "  2nd/release",
    "  2nd/1st pass",
];

/// What the columns have.
const LEGEND: &str = "
  release is all of the first way, by list all of the second, each into an output as long as the file;
  1st pass and 2nd pass are what each takes to write into an output of exactly the released length: a release into it
  less one into no output, and a release by list into it less the list; 2nd/release is of the 2nd pass";

/// Times both ways of all sides, and prints the figures.
pub fn compare(builds: &Builds) {
    println!(
        "lists: medians in ms of {} points, half kept at random{LEGEND}",
        COMMON.points
    );
    common(builds);
    println!();
    growth::print(&builds.ours);
}

/// The common file, by las_plain, ours and an earlier build that has lists.
fn common(builds: &Builds) {
    let (file, lines) = (COMMON.file(), COMMON.points);
    let plain = OfPlain::new(lines);
    let of_builds = builds.all().map(|build| OfBuild::new(build, lines));
    let libraries: Vec<OfBuild> = of_builds.flatten().collect();
    let mut all: Vec<&dyn Ways> = vec![&plain];
    all.extend(libraries.iter().map(|library| library as &dyn Ways));
    assert_same(&all, &file, &SHEET);
    let table = Table::start(&HEADS);
    let times = times(rounds(COMMON.points), &all, &file, &SHEET);
    for (name, times) in ["las_plain", "ours", "before"].iter().zip(&times) {
        table.row(&cells(name, times));
    }
}

/// A row of the common file.
fn cells(name: &str, times: &Times) -> Vec<String> {
    let (first_pass, second_pass) = (times.first_pass(), times.second_pass());
    let calls = [
        times.release,
        times.list,
        times.by_list,
        first_pass,
        second_pass,
    ];
    let of_release = |time: Duration| ratio(time, times.release);
    let parts = [times.list, times.by_list, second_pass].map(of_release);
    let passes = [ratio(second_pass, first_pass)];
    let all = calls
        .into_iter()
        .map(milliseconds)
        .chain(parts)
        .chain(passes);
    figures(name, all)
}

/// Asserts that all sides make the same list, and by it the release of the first way, which is the same again in an
/// output of exactly the released length. Gives the numbers of the release.
pub fn assert_same(all: &[&dyn Ways], file: &[u8], sheet: &[u8]) -> las_released {
    let [mut expected, mut out] = [0x77, 0xEE].map(|junk| vec![junk; file.len()]);
    let numbers = all[0].release(file, sheet, &mut expected);
    assert_eq!(numbers.number, 0);
    let (lines, exact) = (numbers.points + numbers.records, numbers.length as usize);
    let mut lists = Vec::new();
    for ways in all {
        ways.clear();
        assert_eq!(ways.cutting_list(file, sheet), lines);
        let list = ways.lines();
        ways.clear();
        assert_eq!(ways.release_by_list(file, sheet, &mut out), numbers);
        assert!(out == expected, "the outputs differ");
        assert!(ways.lines() == list, "the lists of one side differ");
        lists.push(list);
        out.fill(0xEE);
        assert_eq!(ways.release(file, sheet, &mut out[..exact]), numbers);
        assert!(
            out[..exact] == expected[..exact],
            "the exact outputs differ"
        );
    }
    assert!(
        lists.iter().all(|list| *list == lists[0]),
        "the lists differ"
    );
    numbers
}

#[cfg(test)]
mod tests {
    use super::*;
    use crate::records;
    use crate::sample::Sample;

    #[test]
    fn a_row_has_a_cell_for_each_head_and_parts_of_the_first_way() {
        let times = Times::of([4, 5, 3, 2, 8, 7].map(Duration::from_millis));
        let row = cells("name", &times);
        assert_eq!(row.len(), HEADS.len());
        assert_eq!(row[1..6], ["4.00", "2.00", "8.00", "2.00", "5.00"]);
        assert_eq!(row[6..], ["0.50", "2.00", "1.25", "2.50"]);
    }

    #[test]
    fn the_table_fits_120_columns() {
        let heads = HEADS.concat();
        let mut lines = LEGEND.lines().chain([&*heads]);
        assert!(lines.all(|line| line.len() <= 120));
    }

    #[test]
    fn ours_lists_and_releases_as_las_plain_does() {
        let builds = Builds::asked_for(&[]).expect("the linked build is there");
        let points = 1_000;
        let file = Sample { points, ..COMMON }.file();
        let ours = OfBuild::new(&builds.ours, points).expect("ours makes lists");
        assert_same(&[&OfPlain::new(points), &ours], &file, &SHEET);
        let (file, sheet) = (records::file(100, 0), records::sheet(0));
        assert_same(&[&OfPlain::new(points), &ours], &file, &sheet);
    }
}

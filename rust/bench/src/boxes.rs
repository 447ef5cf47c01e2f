//! Releases and lists of the common file under sheets with boxes, beside those under a sheet without any.

mod sheets;

use std::hint::black_box;
use std::time::Duration;

use crate::builds::Builds;
use crate::cases::COMMON;
use crate::lists::assert_same;
use crate::lists::times::side;
use crate::lists::ways::{OfBuild, OfPlain, Ways};
use crate::table::Table;
use crate::timing::{Side, medians, milliseconds, ratio};

use sheets::Boxed;

const ROUNDS: usize = 15;

/// What is timed, in the order of [`calls`].
const CALLS: [&str; 4] = ["release", "exact", "list", "by list"];

/// The median of each call.
type Medians = [Duration; CALLS.len()];

/// What the columns have.
const LEGEND: &str = "
  half of the points are of the kept class, and half of all lie in the boxes, each in one of them, both at random;
  release and by list write into an output as long as the file, exact into one of exactly the released length;
  /none is what a side takes of its own time without boxes";

/// Stands where an earlier build is not called: it may not know boxes.
const LACKING: &str = "-";

/// Times all calls under all sheets, and prints the figures.
pub fn compare(builds: &Builds) {
    println!(
        "boxes: medians in ms of {} points of format {}, by the number of boxes on the sheet{LEGEND}",
        COMMON.points, COMMON.format
    );
    let plain = OfPlain::new(COMMON.points);
    let of_builds = builds.all().map(|build| OfBuild::new(build, COMMON.points));
    let libraries: Vec<OfBuild> = of_builds.flatten().collect();
    let mut all: Vec<&dyn Ways> = vec![&plain];
    all.extend(libraries.iter().map(|library| library as &dyn Ways));
    let boxed = Boxed::all();
    let found = times(&all, &boxed, &COMMON.file());
    let table = Table::start(&heads(all.len() > 2));
    for (call, name) in CALLS.iter().enumerate() {
        for (boxed, sides) in boxed.iter().zip(&found) {
            let [of_call, without] = [sides, &found[0]].map(|sides| of_call(sides, call));
            table.row(&cells([name, boxed.name], &of_call, &without));
        }
    }
}

/// For each sheet the medians of each side. Only the two that know boxes are called with them. All take turns in every
/// round, so that the figures of one run may be set against each other.
fn times(all: &[&dyn Ways], boxed: &[Boxed], file: &[u8]) -> Vec<Vec<Medians>> {
    let mut sides = Vec::new();
    let mut counts = Vec::new();
    for (index, boxed) in boxed.iter().enumerate() {
        let called = if index == 0 { all } else { &all[..2] };
        let released = assert_same(called, file, &boxed.sheet).length as usize;
        counts.push(called.len());
        for ways in called {
            sides.extend(calls(*ways, file, &boxed.sheet, released));
        }
    }
    let mut room = vec![0; file.len()];
    let found = medians(ROUNDS, &sides, &mut room);
    let (each, _) = found.as_chunks();
    let mut each = each.iter().copied();
    let of_sheet = |count: usize| each.by_ref().take(count).collect();
    counts.into_iter().map(of_sheet).collect()
}

/// The calls of a side, where the released file has so many bytes.
fn calls<'a>(
    ways: &'a dyn Ways,
    file: &'a [u8],
    sheet: &'a [u8],
    released: usize,
) -> [Side<'a>; CALLS.len()] {
    let release = |length| {
        side(ways, length, move |out| {
            black_box(ways.release(black_box(file), sheet, out));
        })
    };
    let list = side(ways, 0, move |_| {
        black_box(ways.cutting_list(black_box(file), sheet));
    });
    let by_list = side(ways, file.len(), move |out| {
        black_box(ways.release_by_list(black_box(file), sheet, out));
    });
    [release(file.len()), release(released), list, by_list]
}

/// The median of one call by each side.
fn of_call(sides: &[Medians], call: usize) -> Vec<Duration> {
    sides.iter().map(|medians| medians[call]).collect()
}

fn heads(before: bool) -> Vec<&'static str> {
    let mut heads = vec!["          ", "   boxes", "  las_plain", "      ours"];
    heads.extend(before.then_some("    before"));
    heads.push("  /las_plain");
    heads.extend(before.then_some("  /before"));
    heads.extend(["  las_plain /none", "  ours /none"]);
    heads
}

/// A row, by the medians of las_plain, ours and, where it was called, an earlier build, and by those without boxes; an
/// earlier build that is in these has columns.
fn cells(names: [&str; 2], times: &[Duration], without: &[Duration]) -> Vec<String> {
    let (plain, ours) = (times[0], times[1]);
    let in_ms = |time| format!("{:.3}", milliseconds(time));
    let of_ours = |other| format!("{:.2}", ratio(ours, other));
    let of_before = |figure: &dyn Fn(Duration) -> String| {
        let before = times.get(2);
        let cell = || before.map_or(LACKING.to_string(), |&time| figure(time));
        (without.len() > 2).then(cell)
    };
    let mut cells = names.map(str::to_string).to_vec();
    cells.extend([plain, ours].map(in_ms));
    cells.extend(of_before(&in_ms));
    cells.push(of_ours(plain));
    cells.extend(of_before(&of_ours));
    let of_own = [ratio(plain, without[0]), ratio(ours, without[1])];
    cells.extend(of_own.map(|ratio| format!("{ratio:.2}")));
    cells
}

#[cfg(test)]
mod tests {
    use super::*;
    use crate::sample::Sample;

    #[test]
    fn a_row_has_a_cell_for_each_head_and_a_dash_where_an_earlier_build_is_not_called() {
        let [without, with] = [[8, 4, 5], [16, 6, 0]].map(|times| times.map(Duration::from_millis));
        let alone = cells(["list", "1"], &with[..2], &without[..2]);
        assert_eq!(alone.len(), heads(false).len());
        assert_eq!(
            alone,
            ["list", "1", "16.000", "6.000", "0.38", "2.00", "1.50"]
        );
        let beside = cells(["list", "1"], &with[..2], &without);
        assert_eq!(beside.len(), heads(true).len());
        assert_eq!(beside[3..], ["6.000", "-", "0.38", "-", "2.00", "1.50"]);
        let none = cells(["list", "none"], &without, &without);
        assert_eq!(
            none[3..],
            ["4.000", "5.000", "0.50", "0.80", "1.00", "1.00"]
        );
    }

    #[test]
    fn the_table_fits_120_columns() {
        let heads = heads(true).concat();
        let mut lines = LEGEND.lines().chain([&*heads]);
        assert!(lines.all(|line| line.len() <= 120));
    }

    #[test]
    fn ours_releases_and_lists_as_las_plain_does_and_an_earlier_build_is_called_without_boxes_alone()
     {
        let builds = Builds::asked_for(&[]).expect("the linked build is there");
        let points = 1_000;
        let file = Sample { points, ..COMMON }.file();
        let ours = OfBuild::new(&builds.ours, points).expect("ours makes lists");
        let plain = OfPlain::new(points);
        let found = times(&[&plain, &ours, &ours], &Boxed::all(), &file);
        assert_eq!(found.iter().map(Vec::len).collect::<Vec<_>>(), [3, 2, 2]);
    }
}

//! Pairs of loaded builds on the same records. Where the linker puts functions shows in the time of a record, so that
//! one pair says little: two builds are compared by many, each pair of them linked in another order.

use super::{Input, RECORDS, ROUNDS};
use crate::builds::Pair;
use crate::each::figures;
use crate::table::Table;
use crate::timing::{medians, middle, per_item};

const HEADS: [&str; 8] = [
    "  pair",
    "   zeros A",
    "   zeros B",
    "     B/A",
    "  spaces A",
    "  spaces B",
    "     B/A",
    "  A and B",
];

/// What the columns have.
const LEGEND: &str = "
  A is the first build of a pair and B the second; zeros or spaces stand behind the texts; B/A is of A's time";

/// Times releases of records by both builds of each pair, and prints a row for each; behind several, their middle.
pub fn compare(pairs: &[Pair]) {
    println!("records: medians in ns for each of {RECORDS} in a release{LEGEND}");
    let table = Table::start(&HEADS);
    let inputs = Input::all();
    // One room for all pairs, since its place may show too. Both files have the same length.
    let mut room = vec![0; inputs[0].file.len()];
    let mut rows = Vec::new();
    for (number, pair) in (1..).zip(pairs) {
        let row = row(pair, &inputs, &mut room);
        table.row(&cells(&number.to_string(), &row, &pair.paths));
        rows.push(row);
    }
    if rows.len() > 1 {
        table.row(&cells("middle", &middles(&rows), "of each column"));
    }
}

/// For each input the nanoseconds of A and of B for a record, and what B takes of A's time.
fn row(pair: &Pair, inputs: &[Input], room: &mut [u8]) -> Vec<f64> {
    let of_input = |input: &Input| {
        assert_same(pair, input);
        let sides = pair.builds.each_ref().map(|build| input.side(build));
        let times = medians(ROUNDS, &sides, room);
        let [a, b] = [times[0], times[1]].map(|time| per_item(time, RECORDS));
        [a, b, b / a]
    };
    inputs.iter().flat_map(of_input).collect()
}

/// Asserts that both builds write the same, whatever was there before.
fn assert_same(pair: &Pair, input: &Input) {
    let [a, b] = &pair.builds;
    let same = input.released(a, 0x77) == input.released(b, 0xEE);
    assert!(same, "{}, {}: the outputs differ", pair.paths, input.name);
}

/// A row, with what it is of in the last column.
fn cells(name: &str, row: &[f64], of: &str) -> Vec<String> {
    let mut cells = figures(name, row.iter().copied());
    cells.push(format!("  {of}"));
    cells
}

/// The middle of each column.
fn middles(rows: &[Vec<f64>]) -> Vec<f64> {
    let column = |at: usize| rows.iter().map(|row| row[at]).collect();
    let columns = 0..rows[0].len();
    columns.map(|at| middle(column(at))).collect()
}

#[cfg(test)]
mod tests {
    use super::*;
    use crate::library::Library;

    #[test]
    fn a_row_has_a_cell_for_each_head_and_the_paths_last() {
        let cells = cells("3", &[4.0, 5.0, 1.25, 8.0, 4.0, 0.5], "a.so b.so");
        assert_eq!(cells.len(), HEADS.len());
        assert_eq!(cells[..4], ["3", "4.00", "5.00", "1.25"]);
        assert_eq!(cells[7], "  a.so b.so");
    }

    #[test]
    fn each_column_has_its_own_middle() {
        let rows = [[1.0, 30.0], [3.0, 10.0], [2.0, 20.0]].map(Vec::from);
        assert_eq!(middles(&rows), [2.0, 20.0]);
    }

    #[test]
    fn the_same_build_twice_writes_the_same() {
        let pair = Pair {
            builds: [(); 2].map(|()| Library::linked()),
            paths: String::new(),
        };
        for input in Input::all() {
            assert_same(&pair, &input);
        }
    }

    #[test]
    fn the_table_fits_120_columns_without_the_paths() {
        let heads = HEADS.concat();
        let mut lines = LEGEND.lines().chain([&*heads]);
        assert!(lines.all(|line| line.len() <= 120));
    }
}

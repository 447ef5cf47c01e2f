//! The table of the releases, a row for each case.

use std::time::Duration;

use crate::releases::{Medians, Row};
use crate::table::Table;
use crate::timing::{milliseconds, ratio};

const CASE: [&str; 5] = [
    "    points",
    "          kept",
    "  format",
    "  extra",
    "  output",
];

/// Begins the table. An earlier build has columns where there is one.
pub fn start(before: bool) -> Table {
    println!("releases: medians in ms, and what ours takes of the others' times");
    Table::start(&heads(before))
}

fn heads(before: bool) -> Vec<&'static str> {
    let mut heads = CASE.to_vec();
    heads.extend(sides(before));
    heads.extend(["  /las_plain", "  /memcpy"]);
    heads.extend(before.then_some("  /before"));
    heads
}

/// The heads of the sides' columns.
pub fn sides(before: bool) -> Vec<&'static str> {
    let mut heads = vec!["    memcpy", "  las_plain", "      ours"];
    heads.extend(before.then_some("    before"));
    heads
}

/// The sides' medians, in the order of the heads.
pub fn times(medians: &Medians) -> impl Iterator<Item = Duration> {
    let sides = [medians.copy, medians.plain, medians.ours];
    sides.into_iter().chain(medians.before)
}

/// One case, as a row of the table.
pub fn cells(row: &Row) -> Vec<String> {
    let (sample, medians) = (&row.sample, &row.medians);
    let mut cells = vec![
        sample.points.to_string(),
        sample.shape.to_string(),
        sample.format.to_string(),
        sample.extra.to_string(),
        row.output.to_string(),
    ];
    cells.extend(times(medians).map(|time| format!("{:.3}", milliseconds(time))));
    let others = [medians.plain, medians.copy];
    let others = others.into_iter().chain(medians.before);
    cells.extend(others.map(|other| format!("{:.3}", ratio(medians.ours, other))));
    cells
}

#[cfg(test)]
mod tests {
    use super::*;
    use crate::cases::{COMMON, Output};

    fn row(before: Option<Duration>) -> Row {
        let [copy, plain, ours] = [2, 8, 4].map(Duration::from_millis);
        Row {
            sample: COMMON,
            output: Output::Exact,
            medians: Medians {
                copy,
                plain,
                ours,
                before,
            },
        }
    }

    #[test]
    fn a_row_has_a_cell_for_each_head_and_ratios_of_ours() {
        let alone = cells(&row(None));
        assert_eq!(alone.len(), heads(false).len());
        assert_eq!(alone[5..], ["2.000", "8.000", "4.000", "0.500", "2.000"]);
        let both = cells(&row(Some(Duration::from_millis(5))));
        assert_eq!(both.len(), heads(true).len());
        assert_eq!(both[8..], ["5.000", "0.500", "2.000", "0.800"]);
    }

    #[test]
    fn the_table_fits_120_columns() {
        assert!(heads(true).concat().len() <= 120);
    }
}

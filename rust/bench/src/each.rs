//! Tables of the time for each item, side by side.

use std::time::Duration;

use crate::table::Table;
use crate::timing::{per_item, ratio};

/// Stands where an earlier build has no figure.
const LACKING: &str = "-";

/// Begins a table. An earlier build has columns where there is one.
pub fn start(before: bool) -> Table {
    Table::start(&heads(before))
}

fn heads(before: bool) -> Vec<&'static str> {
    let mut heads = vec!["              ", "  las_plain", "      ours"];
    heads.extend(before.then_some("    before"));
    heads.push("  /las_plain");
    heads.extend(before.then_some("  /before"));
    heads
}

/// A row. The times are those of las_plain, ours and, where there is one, an earlier build.
pub fn cells(name: &str, count: usize, times: &[Duration]) -> Vec<String> {
    let each = times.iter().map(|&time| per_item(time, count));
    let others = [times[0]].into_iter().chain(times.get(2).copied());
    let ratios = others.map(|other| ratio(times[1], other));
    figures(name, each.chain(ratios))
}

/// A row of what an earlier build does not have, in a table with columns for one.
pub fn cells_without_before(name: &str, count: usize, times: &[Duration]) -> Vec<String> {
    let mut row = cells(name, count, &times[..2]);
    row.insert(3, LACKING.to_string());
    row.push(LACKING.to_string());
    row
}

/// A row of these figures.
pub fn figures(name: &str, figures: impl IntoIterator<Item = f64>) -> Vec<String> {
    let figures = figures.into_iter().map(|figure| format!("{figure:.2}"));
    [name.to_string()].into_iter().chain(figures).collect()
}

#[cfg(test)]
mod tests {
    use super::*;

    #[test]
    fn a_row_has_a_cell_for_each_head_and_ratios_of_ours() {
        let times = [8, 4, 5].map(Duration::from_nanos);
        let alone = cells("name", 2, &times[..2]);
        assert_eq!(alone.len(), heads(false).len());
        assert_eq!(alone, ["name", "4.00", "2.00", "0.50"]);
        let both = cells("name", 2, &times);
        assert_eq!(both.len(), heads(true).len());
        assert_eq!(both[3..], ["2.50", "0.50", "0.80"]);
        let lacking = cells_without_before("name", 2, &times[..2]);
        assert_eq!(lacking.len(), heads(true).len());
        assert_eq!(lacking, ["name", "4.00", "2.00", "-", "0.50", "-"]);
    }
}

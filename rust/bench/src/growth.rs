//! The time for each point as files grow, read off the rows of the releases.

use crate::cases::{COMMON, Output, SIZES};
use crate::each::figures;
use crate::releases::Row;
use crate::report::{sides, times};
use crate::sample::Sample;
use crate::table::Table;
use crate::timing::per_item;

/// The name of the row that says by how much the time for each point grows.
pub const GROWTH: &str = "10^7 / 10^5";

/// Prints the time for each point of files of all sizes, and by how much it grows.
pub fn print(rows: &[Row], before: bool) {
    println!("growth: ns for each point, half kept at random, output as long as the file");
    let mut heads = vec!["        points"];
    heads.extend(sides(before));
    let table = Table::start(&heads);
    let sizes = SIZES.map(|points| per_point(rows, points));
    for (points, each) in SIZES.iter().zip(&sizes) {
        table.row(&figures(&points.to_string(), each.iter().copied()));
    }
    let [_, small, _, large] = &sizes;
    table.row(&figures(GROWTH, ratios(large, small)));
}

/// Nanoseconds for each point, side by side, of the common case at this size.
fn per_point(rows: &[Row], points: usize) -> Vec<f64> {
    let sample = Sample { points, ..COMMON };
    let is_it = |row: &&Row| row.sample == sample && row.output == Output::File;
    let row = rows.iter().find(is_it).expect("every size has a row");
    let each = |time| per_item(time, points);
    times(&row.medians).map(each).collect()
}

/// How many times more each side takes.
pub fn ratios(large: &[f64], small: &[f64]) -> Vec<f64> {
    let sides = large.iter().zip(small);
    sides.map(|(large, small)| large / small).collect()
}

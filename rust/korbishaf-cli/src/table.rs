//! Tables of text.

use std::fmt;

/// To which side the cells of a column are pushed.
#[derive(Clone, Copy, Debug, PartialEq, Eq)]
pub enum Side {
    /// To the left, as words are.
    Left,
    /// To the right, as numbers are.
    Right,
}

/// Rows of cells, of which some may be shorter than others. They are made twice, for the widths and for the lines, so
/// that one at a time is in memory, however many a file has.
///
/// It shows itself as lines, with two places before each cell and none at a line's end.
pub struct Table<I> {
    sides: &'static [Side],
    rows: I,
    title: &'static str,
    empty: String,
}

impl<I, R> Table<I>
where
    I: Iterator<Item = R> + Clone,
    R: AsRef<[String]>,
{
    /// A table whose columns have these sides; those behind them are pushed to the left.
    pub fn new(sides: &'static [Side], rows: I) -> Self {
        Table {
            sides,
            rows,
            title: "",
            empty: String::new(),
        }
    }

    /// The table with words that stand in its place where there are no rows.
    pub fn or(self, words: impl Into<String>) -> Self {
        let empty = words.into();
        Table { empty, ..self }
    }

    /// The table below a title, moved in by two more places; without rows there is no title.
    pub fn under(self, title: &'static str) -> Self {
        Table { title, ..self }
    }

    /// The width of each column: that of its widest cell.
    fn widths(&self) -> Vec<usize> {
        let mut widths: Vec<usize> = Vec::new();
        for row in self.rows.clone() {
            let row = row.as_ref();
            widths.resize(widths.len().max(row.len()), 0);
            for (width, cell) in widths.iter_mut().zip(row) {
                *width = (*width).max(cell.chars().count());
            }
        }
        widths
    }

    /// A row as a line.
    fn line(&self, row: &[String], widths: &[usize]) -> String {
        let mut line = String::new();
        for (place, (cell, &width)) in row.iter().zip(widths).enumerate() {
            let cell = match self.sides.get(place) {
                Some(Side::Right) => format!("  {cell:>width$}"),
                _ => format!("  {cell:width$}"),
            };
            line.push_str(&cell);
        }
        line.truncate(line.trim_end_matches(' ').len());
        line
    }
}

impl<I, R> fmt::Display for Table<I>
where
    I: Iterator<Item = R> + Clone,
    R: AsRef<[String]>,
{
    fn fmt(&self, f: &mut fmt::Formatter<'_>) -> fmt::Result {
        let widths = self.widths();
        if widths.is_empty() {
            return match self.empty.as_str() {
                "" => Ok(()),
                words => writeln!(f, "  {words}"),
            };
        }
        let moved_in = match self.title {
            "" => "",
            title => {
                writeln!(f, "  {title}")?;
                "  "
            }
        };
        let mut rows = self.rows.clone();
        rows.try_for_each(|row| writeln!(f, "{moved_in}{}", self.line(row.as_ref(), &widths)))
    }
}

#[cfg(test)]
mod tests {
    use super::*;

    const SIDES: &[Side] = &[Side::Right, Side::Left, Side::Right];

    fn rows() -> impl Iterator<Item = Vec<String>> + Clone {
        let rows = [
            &["1", "ground", "20", "x"][..],
            &["100", "water", "3"],
            &["7", "", ""],
        ];
        rows.into_iter()
            .map(|row| row.iter().map(|cell| cell.to_string()).collect())
    }

    #[test]
    fn columns_stand_below_each_other() {
        assert_eq!(
            Table::new(SIDES, rows()).to_string(),
            "    1  ground  20  x\n  100  water    3\n    7\n"
        );
    }

    #[test]
    fn a_title_moves_the_lines_in() {
        assert_eq!(
            Table::new(SIDES, rows()).under("points").to_string(),
            "  points\n      1  ground  20  x\n    100  water    3\n      7\n"
        );
    }

    #[test]
    fn no_rows_are_no_lines() {
        let none = || Table::new(&[], rows().take(0));
        assert_eq!(none().to_string(), "");
        assert_eq!(none().under("points").to_string(), "");
        assert_eq!(none().or("none").to_string(), "  none\n");
    }

    #[test]
    fn blanks_of_a_cell_stay_but_at_the_end() {
        let rows = [["a ", " b "], ["ccc", "d"]].map(|row| row.map(String::from));
        let table = Table::new(&[Side::Right], rows.into_iter());
        assert_eq!(table.to_string(), "   a    b\n  ccc  d\n");
    }
}

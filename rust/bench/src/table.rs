//! Tables of plain text.

/// The widths of the columns.
pub struct Table {
    widths: Vec<usize>,
}

impl Table {
    /// Prints the heads. A head has its column's width, with spaces in front.
    pub fn start(heads: &[&str]) -> Self {
        println!("{}", heads.concat());
        Self {
            widths: heads.iter().map(|head| head.len()).collect(),
        }
    }

    /// Prints a row, each cell at the right of its column.
    pub fn row(&self, cells: &[String]) {
        println!("{}", self.line(cells));
    }

    fn line(&self, cells: &[String]) -> String {
        let columns = self.widths.iter().zip(cells);
        columns
            .map(|(width, cell)| format!("{cell:>width$}"))
            .collect()
    }
}

#[cfg(test)]
mod tests {
    use super::*;

    #[test]
    fn cells_stand_at_the_right_of_their_columns() {
        let table = Table {
            widths: vec![6, 3, 5],
        };
        let cells = ["half", "1", "0.25"].map(String::from);
        assert_eq!(table.line(&cells), "  half  1 0.25");
    }
}

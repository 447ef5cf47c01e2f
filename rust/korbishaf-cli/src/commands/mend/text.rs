//! What `mend` prints for a person.

use super::Mended;
use crate::shown::counted;
use crate::table::{Side, Table};

/// A line, and a table of the fields that changed.
pub fn of(mended: &Mended<'_>) -> String {
    let changed = mended.changes.changed();
    let rows = changed.clone().map(|change| {
        [
            change.field.name.into(),
            change.before.to_string(),
            change.after.to_string(),
        ]
    });
    let (input, output) = (mended.input, mended.output);
    match (changed.count(), mended.written) {
        (0, false) => format!("{input}: nothing had to be mended, left as it is"),
        (0, true) => format!("{input}: nothing had to be mended, written to {output} as it is"),
        (count, _) => {
            let titles = ["", "before", "after"].map(String::from);
            let table = Table::new(
                &[Side::Left, Side::Right, Side::Right],
                [titles].into_iter().chain(rows),
            );
            let fields = counted(count, "field");
            format!("{input}: {fields} mended, written to {output}\n{table}")
        }
    }
}

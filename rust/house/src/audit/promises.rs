//! The functions that docs/PROMISES.md lists.

use super::repository::Repository;
use crate::citations;
use crate::files::Result;
use std::collections::BTreeSet;

pub const PAPER: &str = "docs/PROMISES.md";

/// The functions of the tables headed 'Function', with the lines where they stand.
pub fn promised(text: &str) -> Vec<(usize, String)> {
    let rows = citations::rows(text).into_iter();
    rows.filter(|row| row.head == "Function" && !row.first.is_empty())
        .map(|row| (row.line, row.first.to_string()))
        .collect()
}

/// The promises of what is no public function, and those made twice.
pub fn of_nothing(repository: &Repository) -> Result<Vec<String>> {
    let names: BTreeSet<String> = repository
        .public()
        .map(|function| function.listed_as())
        .collect();
    let (mut found, mut seen) = (Vec::new(), BTreeSet::new());
    for (number, name) in &repository.promised {
        let again = !seen.insert(name);
        if !names.contains(name) {
            found.push(format!("{PAPER}:{number}: `{name}` is no public function"));
        } else if again {
            found.push(format!("{PAPER}:{number}: `{name}` is listed twice"));
        }
    }
    Ok(found)
}

#[cfg(test)]
mod tests {
    use super::super::tests::{PROMISES, objections};
    use super::*;

    #[test]
    fn only_tables_of_functions_are_read() {
        let text = "| `a` |\n\n| Function | Does |\n|:--|---|\n| `b::c` | d |\n|  | e |\n|`las_f`|\n\n\
            | `g` | h |\n| Number |\n";
        assert_eq!(
            promised(text),
            [(5, "b::c".to_string()), (7, "las_f".to_string())]
        );
    }

    #[test]
    fn a_promise_of_nothing_and_one_made_twice_are_objected_to() {
        let with = |row: &str| objections(&[(PAPER, &format!("{PROMISES}{row}\n"))]);
        assert_eq!(
            with("| `c::g` | |"),
            ["docs/PROMISES.md:6: `c::g` is no public function"]
        );
        assert_eq!(
            with("| `c::f` | |"),
            ["docs/PROMISES.md:6: `c::f` is listed twice"]
        );
        assert!(with("\n| `c::g` | in no table of functions |").is_empty());
    }
}

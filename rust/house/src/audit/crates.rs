//! The crates: what they hold, and whether crates.txt lists them.

use super::repository::Repository;
use crate::files::{self, Result};
use std::collections::BTreeSet;

/// The crates that crates.txt does not list.
pub fn unlisted(repository: &Repository) -> Result<Vec<String>> {
    let missing = repository
        .crates
        .iter()
        .filter(|(name, _)| !repository.listed.iter().any(|listed| listed.name == *name));
    Ok(missing
        .map(|(name, _)| format!("crates/{name}: not in crates.txt"))
        .collect())
}

fn count_lines(
    repository: &Repository,
    in_crate: &str,
    folder: &str,
    suffix: &str,
) -> Result<usize> {
    let folder = files::crate_folder(in_crate).join(folder);
    let mut count = 0;
    for file in files::with_suffix(&repository.root, &folder, suffix)? {
        count += files::lines(&repository.root, &file)?.len();
    }
    Ok(count)
}

fn row(name: &str, [functions, public, src, specs, proofs, programs, edits]: [usize; 7]) -> String {
    format!(
        "{name:<12} {functions:>9} {public:>6} {src:>6} {specs:>6} {proofs:>6} {programs:>14} {edits:>5}"
    )
}

/// A line for each crate: its functions, the lines of its folders, its wrong programs and its edits.
pub fn table(repository: &Repository) -> Result<Vec<String>> {
    let mut lines = vec![format!(
        "{:<12} functions public    src  specs proofs wrong programs edits",
        "crate"
    )];
    let mut totals = [0; 7];
    for (name, functions) in &repository.crates {
        let labels: BTreeSet<&str> = repository
            .programs_of(name)
            .map(|program| program.label.as_str())
            .collect();
        let figures = [
            functions.len(),
            functions.iter().filter(|function| function.public).count(),
            count_lines(repository, name, "src", "rt")?,
            count_lines(repository, name, "specs", "antt")?,
            count_lines(repository, name, "proofs", "antt")?,
            repository.programs_of(name).count(),
            labels.len(),
        ];
        totals = std::array::from_fn(|at| totals[at] + figures[at]);
        lines.push(row(name, figures));
    }
    lines.push(row("all", totals));
    Ok(lines)
}

#[cfg(test)]
mod tests {
    use super::super::tests::objections;

    #[test]
    fn a_static_library_is_listed_by_its_name() {
        let with = |list: &str| objections(&[("crates.txt", list), ("crates/e/src/lib.rt", "")]);
        assert!(with("c:\ne staticlib: c\n").is_empty());
        assert!(with("c:\n e  staticlib :c # for C\n").is_empty());
        for list in [
            "c:\nstaticlib e: c\n",
            "c:\nstaticlib: e c\n",
            "c: e staticlib\n",
            "c:\n# e staticlib: c\n",
        ] {
            assert_eq!(with(list), ["crates/e: not in crates.txt"], "{list}");
        }
    }

    #[test]
    fn a_crate_that_is_not_listed_is_objected_to() {
        assert_eq!(
            objections(&[("crates.txt", "# c:\nd: c\n")]),
            ["crates/c: not in crates.txt"]
        );
        assert_eq!(
            objections(&[("crates/e/src/lib.rt", "")]),
            ["crates/e: not in crates.txt"]
        );
    }
}

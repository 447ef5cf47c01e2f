//! What docs/PROMISES.md says of the wrong programs.

use super::promises::PAPER;
use super::repository::Repository;
use crate::citations::{self, Owners};
use crate::edits;
use crate::files::Result;
use crate::scan;
use std::collections::BTreeSet;

/// The head of the table of theorems, and how many wrong statements each row cites at least.
const THEOREMS: &str = "Demand";
const LEAST: usize = 2;

/// The citations that are no wrong program of the edit, the function and the crate that they name.
pub fn of_nothing(repository: &Repository) -> Result<Vec<String>> {
    let owners = Owners::of(repository.functions());
    let mut found = Vec::new();
    for row in citations::rows(&repository.paper) {
        for citation in citations::cited_in(&row) {
            let mut of_label = repository
                .programs
                .iter()
                .filter(|program| program.label == citation.label);
            if !of_label.any(|program| citation.is_of(program, &owners)) {
                let (line, what, label) = (citation.line, citation.what, citation.label);
                found.push(format!(
                    "{PAPER}:{line}: '{what} (`{label}`): {}' is no wrong program",
                    citation.input
                ));
            }
        }
    }
    Ok(found)
}

/// The theorems that cite fewer than two wrong statements.
pub fn too_few(repository: &Repository) -> Result<Vec<String>> {
    let mut theorems = citations::rows(&repository.paper);
    theorems.retain(|row| row.head == THEOREMS);
    if theorems.is_empty() && repository.crates.iter().any(|(name, _)| name == "theorems") {
        return Ok(vec![format!("{PAPER}: has no table of theorems")]);
    }
    let counted = theorems
        .iter()
        .map(|row| (row, citations::cited_in(row).len()));
    let few = counted.filter(|(_, count)| *count < LEAST);
    Ok(few
        .map(|(row, count)| {
            let statement = row.cells.get(1).unwrap_or(&"");
            format!(
                "{PAPER}:{}: {statement} cites {count} wrong statements",
                row.line
            )
        })
        .collect())
}

/// The sentence that counts all wrong programs and edits.
fn count_of_all(repository: &Repository) -> Result<String> {
    let mut edits = 0;
    for (name, _) in &repository.crates {
        edits += edits::edits_of(&repository.root, name)?.len();
    }
    let programs = repository.programs.len();
    Ok(format!(
        "{programs} wrong programs and statements stand in {edits} edits"
    ))
}

/// The sentence that counts those of a crate's functions where none is public: no row can list them.
fn count_of_private(repository: &Repository, in_crate: &str) -> Option<String> {
    let functions = repository.functions_of(in_crate);
    let of_functions = repository.programs_of(in_crate);
    let labels: Vec<&str> = of_functions
        .filter(|program| !program.is_law())
        .map(|program| program.label.as_str())
        .collect();
    let (programs, edits) = (labels.len(), BTreeSet::from_iter(labels).len());
    let none_is_listed = programs > 0 && !functions.iter().any(|function| function.public);
    none_is_listed.then(|| {
        format!("`{in_crate}` has no public function: {programs} wrong programs in {edits} edits")
    })
}

/// The sentences that count wrong programs and edits, where they are not the true ones.
pub fn miscounted(repository: &Repository) -> Result<Vec<String>> {
    let mut wanted = vec![count_of_all(repository)?];
    let names = repository.crates.iter().map(|(name, _)| name);
    wanted.extend(names.filter_map(|name| count_of_private(repository, name)));
    let said = format!(" {}", scan::on_one_line(&repository.paper));
    wanted.retain(|wanted| !said.contains(&format!(" {wanted}")));
    let objected = wanted.iter();
    let objected = objected.map(|wanted| format!("{PAPER}: does not say that {wanted}"));
    Ok(objected.collect())
}

#[cfg(test)]
mod tests {
    use super::super::tests::{PROMISES, objections};
    use super::*;

    const STATEMENTS: &str = "crates/theorems/must-fail/wrong_1.edit";
    const EDIT: &str = "file: specs/S.antt\n# Laws.a: u; differs where 1\nold: a\nnew: b\n\
        # Laws.b: v; differs where 2\nold: c\nnew: d\n";

    /// The objections to a paper whose one row of functions cites these.
    fn with_cited(entries: &str) -> Vec<String> {
        let paper = PROMISES.replace("wrong (`wrong_1`): a is 7", entries);
        assert_ne!(paper, PROMISES);
        objections(&[(PAPER, &paper)])
    }

    /// The objections to a paper with these rows of theorems.
    fn with_theorems(rows: &str) -> Vec<String> {
        let counted = PROMISES.replace("2 wrong programs", "4 wrong programs");
        let counted = counted.replace("2 edits", "3 edits");
        let paper = format!("{counted}\n| Demand | Statement | Wrong |\n|---|---|---|\n{rows}");
        objections(&[
            (PAPER, &paper),
            (STATEMENTS, EDIT),
            ("crates/theorems/specs/S.antt", "a c\n"),
            ("crates.txt", "c:\ntheorems:\n"),
        ])
    }

    #[test]
    fn a_citation_of_no_wrong_program_is_objected_to() {
        assert!(with_cited("wrong (`wrong_1`): a is 7<br>wrong (`wrong_2`): a is 7").is_empty());
        for entry in [
            "wrong (`wrong_3`): a is 7",
            "wrong (`wrong_1`): a is 8",
            "worse (`wrong_1`): a is 7",
            "in `g`: wrong (`wrong_1`): a is 7",
        ] {
            let shown = entry.trim_start_matches("in `g`: ");
            let wanted = format!("{PAPER}:5: '{shown}' is no wrong program");
            assert_eq!(with_cited(entry), [wanted]);
        }
    }

    #[test]
    fn a_theorem_with_one_wrong_statement_is_objected_to() {
        let both = "| 1 | `S.a` | u (`wrong_1`): 1<br>v (`wrong_1`): 2 |\n";
        assert!(with_theorems(both).is_empty());
        assert_eq!(
            with_theorems(&format!("{both}|  | `S.b` | u (`wrong_1`): 1 |\n")),
            [format!("{PAPER}:10: `S.b` cites 1 wrong statements")]
        );
        assert_eq!(
            with_theorems(&both.replace("): 2", "): 3")),
            [format!("{PAPER}:9: 'v (`wrong_1`): 3' is no wrong program")]
        );
        assert_eq!(
            with_theorems(""),
            [format!("{PAPER}: has no table of theorems")]
        );
    }

    #[test]
    fn a_count_that_is_not_the_true_one_is_objected_to() {
        let wanted =
            "docs/PROMISES.md: does not say that 2 wrong programs and statements stand in 2 edits";
        for (old, new) in [
            ("2 wrong", "3 wrong"),
            ("2 wrong", "12 wrong"),
            ("2 edits", "1 edits"),
            ("2 edits", "some edits"),
        ] {
            let paper = PROMISES.replace(old, new);
            assert_eq!(objections(&[(PAPER, &paper)]), [wanted], "{new}");
        }
        let broken = PROMISES.replace("stand in", "stand\nin");
        assert!(objections(&[(PAPER, &broken)]).is_empty());
    }

    #[test]
    fn wrong_programs_of_a_crate_without_a_public_function_have_to_be_counted() {
        let edit = "file: src/main.rt\n# f: u; differs where 1\nold: 1\nnew: 2\n# g: v; differs where 2\nold: 3\n\
            new: 4\nfile: specs/S.antt\n# S.a: w; differs where 3\nold: a\nnew: b\n";
        let counted = PROMISES.replace("2 wrong", "5 wrong");
        let counted = counted.replace("2 edits", "3 edits");
        let with = |sentence: &str| {
            objections(&[
                ("crates.txt", "c:\np: c\n"),
                ("crates/p/src/main.rt", "fn f() { 1 }\nfn g() { 3 }\n"),
                ("crates/p/specs/S.antt", "a\n"),
                ("crates/p/must-fail/wrong_1.edit", edit),
                (PAPER, &format!("{counted}\n{sentence}\n")),
            ])
        };
        let wanted = "`p` has no public function: 2 wrong programs in 1 edits";
        assert!(
            with(&format!(
                "The program {}, of `f` and `g`.",
                wanted.replace(": ", ":\n")
            ))
            .is_empty()
        );
        for other in [
            "",
            "`p` has no public function: 3 wrong programs in 1 edits",
        ] {
            assert_eq!(
                with(other),
                [format!("{PAPER}: does not say that {wanted}")]
            );
        }
    }
}

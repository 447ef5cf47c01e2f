//! Holes and axioms in the proofs.

use super::repository::Repository;
use crate::files::{self, Result};
use crate::scan;
use std::path::Path;

/// Whether a `?` stands by itself in a line of code.
fn has_hole(code: &str) -> bool {
    code.match_indices('?').any(|(at, _)| {
        let before = code[..at].chars().next_back();
        let behind = code[at + 1..].chars().next();
        before.is_none_or(|c| c.is_whitespace() || "(={;,".contains(c))
            && behind.is_none_or(|c| c.is_whitespace() || ");,}".contains(c))
    })
}

/// Whether a name stands at a place: no longer one, and no name behind a dot.
fn is_name_at(code: &str, at: usize, name: &str) -> bool {
    let in_name = |c: char| scan::in_word(c) || "·'-".contains(c);
    let before = code[..at].chars().next_back();
    let behind = code[at + name.len()..].chars().next();
    !before.is_some_and(|c| in_name(c) || c == '.') && !behind.is_some_and(in_name)
}

/// The first axiom that a line of code cites.
fn axiom(code: &str) -> Option<&'static str> {
    let places = ["lem", "ac"].into_iter().filter_map(|name| {
        let at = code
            .match_indices(name)
            .map(|(at, _)| at)
            .find(|at| is_name_at(code, *at, name))?;
        Some((at, name))
    });
    places.min().map(|(_, name)| name)
}

/// The holes and axioms of the files of terms in the crates' folders.
pub fn unproved(repository: &Repository) -> Result<Vec<String>> {
    let root = &repository.root;
    let mut found = Vec::new();
    for path in files::with_suffix(root, Path::new("crates"), "antt")? {
        if path.components().count() < 4 {
            continue;
        }
        for (number, line) in (1..).zip(files::lines(root, &path)?) {
            let code = scan::before_comment(&line, "--");
            if has_hole(code) {
                found.push(format!("{}:{number}: a hole", path.display()));
            }
            if let Some(name) = axiom(code) {
                found.push(format!("{}:{number}: the axiom `{name}`", path.display()));
            }
        }
    }
    Ok(found)
}

#[cfg(test)]
mod tests {
    use super::super::tests::objections;
    use super::*;

    #[test]
    fn holes() {
        for code in ["?", "f = ?", "f (?) a", "{ a = ?; b }", "f ?, b", "{?}"] {
            assert!(has_hole(code), "{code}");
        }
        for code in ["x?", "?x", "is-zero? a", "a ?= b", ""] {
            assert!(!has_hole(code), "{code}");
        }
    }

    #[test]
    fn axioms() {
        for (code, name) in [
            ("lem", "lem"),
            ("use A.{lem, b}", "lem"),
            ("f (ac x)", "ac"),
            ("ac lem", "ac"),
            ("·x ac.a", "ac"),
        ] {
            assert_eq!(axiom(code), Some(name), "{code}");
        }
        for code in [
            "lemma", "A.lem", "·ac", "ac'", "no-lem", "ac-laws", "back", "lem₁x", "ac·b",
        ] {
            assert_eq!(axiom(code), None, "{code}");
        }
    }

    #[test]
    fn a_hole_and_an_axiom_are_objected_to() {
        let with = |text: &str| objections(&[("crates/c/proofs/f/Proof.antt", text)]);
        assert_eq!(
            with("-- ? lem\nf = ?\n"),
            ["crates/c/proofs/f/Proof.antt:2: a hole"]
        );
        assert_eq!(
            with("use A.{lem}\n"),
            ["crates/c/proofs/f/Proof.antt:1: the axiom `lem`"]
        );
        assert!(with("f = g -- ? ac\n").is_empty());
    }

    #[test]
    fn what_rt_makes_is_left_out_and_the_proof_of_a_function_out_is_not() {
        let with = |file: &str| objections(&[(file, "f = ?\n")]);
        assert!(with("crates/c/out/proofs/f/Goals.antt").is_empty());
        for file in [
            "crates/c/proofs/out/Answers.antt",
            "crates/c/proofs/m/out/Answers.antt",
            "crates/c/specs/out.antt",
        ] {
            assert_eq!(with(file), [format!("{file}:1: a hole")]);
        }
    }
}

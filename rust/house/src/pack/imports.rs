//! Which files of a crate a file of it rests on.

use crate::files::{self, Result};
use std::collections::{BTreeMap, BTreeSet};
use std::path::{Path, PathBuf};

pub struct Imports<'a> {
    root: &'a Path,
    folder: PathBuf,
    in_crate: &'a str,
    known: BTreeMap<String, BTreeSet<String>>,
}

impl<'a> Imports<'a> {
    pub fn new(root: &'a Path, in_crate: &'a str) -> Imports<'a> {
        Imports {
            root,
            folder: files::crate_folder(in_crate),
            in_crate,
            known: BTreeMap::new(),
        }
    }

    /// Whether the crate has a file.
    pub fn has(&self, file: &str) -> bool {
        self.root.join(&self.folder).join(file).is_file()
    }

    /// The files of the crate's own specs/ and proofs/ that a file names.
    fn named_in(&self, file: &str) -> Result<BTreeSet<String>> {
        let text = files::read(self.root, &self.folder.join(file))?;
        let mut found = BTreeSet::new();
        for (part, steps) in own_paths(&text, self.in_crate) {
            let longest_first = (1..=steps.len())
                .rev()
                .map(|n| format!("{part}/{}.antt", steps[..n].join("/")));
            found.extend(longest_first.filter(|name| self.has(name)).take(1));
        }
        Ok(found)
    }

    /// All files that some files rest on, and these.
    pub fn all_below(&mut self, files: Vec<String>) -> Result<BTreeSet<String>> {
        let (mut seen, mut todo) = (BTreeSet::new(), files);
        while let Some(file) = todo.pop() {
            if !seen.insert(file.clone()) {
                continue;
            }
            if !self.known.contains_key(&file) {
                self.known.insert(file.clone(), self.named_in(&file)?);
            }
            todo.extend(self.known[&file].iter().cloned());
        }
        Ok(seen)
    }
}

/// What follows one of the two names of a part, and that name.
fn part_of(text: &str) -> Option<(&'static str, &str)> {
    ["specs", "proofs"]
        .into_iter()
        .find_map(|part| Some((part, text.strip_prefix(part)?)))
}

/// The steps of a path `.A.B..` that a text begins with, with what stands between them.
fn steps_of<'a>(mut text: &'a str, between: &str) -> Vec<&'a str> {
    let mut steps = Vec::new();
    while let Some(rest) = text.strip_prefix(between) {
        let end = rest
            .find(|c: char| c.is_whitespace() || ".:,{};()".contains(c))
            .unwrap_or(rest.len());
        if end == 0 {
            break;
        }
        steps.push(&rest[..end]);
        text = &rest[end..];
    }
    steps
}

/// The paths `Rattle.CRATE.specs.A.B` of a text, and `crate::specs::A::B` of a source, as the part and its steps.
fn own_paths<'a>(text: &'a str, in_crate: &str) -> Vec<(&'static str, Vec<&'a str>)> {
    let head = format!("Rattle.{in_crate}.");
    let named = text.split(head.as_str()).skip(1);
    let mut found: Vec<_> = named
        .filter_map(|rest| part_of(rest).map(|(part, rest)| (part, steps_of(rest, "."))))
        .collect();
    let inside = text.split("crate::").skip(1);
    found.extend(
        inside.filter_map(|rest| part_of(rest).map(|(part, rest)| (part, steps_of(rest, "::")))),
    );
    found
}

#[cfg(test)]
mod tests {
    use super::*;
    use crate::sample::Sample;

    #[test]
    fn paths_of_the_own_crate() {
        let text = "use Rattle.c.specs.A.B.{x};\nuse Rattle.c.proofs.m.Laws;\n\
            use Rattle.d.specs.N.{y};\nuse Rattle.c.src.lib;\n(Rattle.c.specs.E.f)\n\
            #[tactic(auto, using(crate::proofs::m::Laws::a, crate::f))]";
        let found = own_paths(text, "c");
        let specs = |steps: &[&'static str]| ("specs", steps.to_vec());
        assert_eq!(
            found,
            [
                specs(&["A", "B"]),
                ("proofs", vec!["m", "Laws"]),
                specs(&["E", "f"]),
                ("proofs", vec!["m", "Laws", "a"]),
            ]
        );
    }

    #[test]
    fn a_file_rests_on_those_below_the_ones_that_it_names() {
        let sample = Sample::new(&[
            ("crates/c/src/lib.rt", "ghost use Rattle.c.specs.A.{x};\n"),
            ("crates/c/specs/A.antt", "use Rattle.c.specs.m.B.y;\n"),
            (
                "crates/c/specs/m/B.antt",
                "use Rattle.c.specs.A.{x};\nuse Rattle.c.specs.Gone;\n",
            ),
            ("crates/c/specs/C.antt", ""),
        ]);
        let below = Imports::new(sample.root(), "c")
            .all_below(vec!["src/lib.rt".to_string()])
            .unwrap();
        assert_eq!(
            Vec::from_iter(below),
            ["specs/A.antt", "specs/m/B.antt", "src/lib.rt"]
        );
    }
}

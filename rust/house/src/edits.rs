//! Reads and writes the wrong programs of the must-fail edits.
//!
//! An edit, crates/CRATE/must-fail/LABEL.edit, holds lines 'file: F', then for each wrong program
//! '# NAME: what is wrong; differs where INPUT' and its pairs of lines 'old: TEXT' and 'new: TEXT'. NAME is a
//! function's path in its crate, or FILE.LAW for a statement.

mod apply;
mod constants;
mod text;

pub use apply::{apply, changed};
pub use text::{read_edit, text_of};

use crate::files::{self, Result};
use std::path::{Path, PathBuf};

/// A text of a file, and what stands there instead.
#[derive(Clone, Debug, PartialEq)]
pub struct Change {
    pub file: String,
    pub old: String,
    pub new: String,
}

#[derive(Clone, Debug, PartialEq)]
pub struct WrongProgram {
    pub in_crate: String,
    /// Of the edit that holds it.
    pub label: String,
    pub name: String,
    pub what: String,
    /// The input where it differs, or nothing.
    pub differs: String,
    pub changes: Vec<Change>,
}

impl WrongProgram {
    /// Whether it is a wrong statement of a law.
    pub fn is_law(&self) -> bool {
        self.name.contains('.')
    }

    /// The files of its crate that may refuse it: a law's own, or those in the folder of its function. The folder of a
    /// function that calls itself has a '+' before its name.
    pub fn proofs(&self) -> Vec<String> {
        let Some((file, _)) = self.name.rsplit_once('.') else {
            let path = self.name.replace("::", "/");
            let (above, own) = path.rsplit_once('/').unwrap_or(("", &path));
            let slash = if above.is_empty() { "" } else { "/" };
            let folders = [
                format!("proofs/{path}"),
                format!("proofs/{above}{slash}+{own}"),
            ];
            let names = ["Answers", "Invariants", "Proof"];
            return folders
                .iter()
                .flat_map(|folder| names.map(|name| format!("{folder}/{name}.antt")))
                .collect();
        };
        vec![format!("proofs/{}.antt", file.replace("::", "/"))]
    }

    /// The function's own name, without its path.
    pub fn function(&self) -> &str {
        self.name.rsplit("::").next().unwrap_or_default()
    }

    /// The edit that it stands in.
    pub fn edit(&self) -> String {
        format!("{}/{}", self.in_crate, self.label)
    }

    /// How it is spoken of.
    pub fn cited(&self) -> String {
        format!("{}: {}: {}", self.edit(), self.name, self.what)
    }

    /// A file of its crate.
    pub fn path(&self, file: &str) -> PathBuf {
        files::crate_folder(&self.in_crate).join(file)
    }
}

/// The edits of a crate, in order.
pub fn edits_of(root: &Path, in_crate: &str) -> Result<Vec<PathBuf>> {
    let folder = files::crate_folder(in_crate).join("must-fail");
    let mut found = files::with_suffix(root, &folder, "edit")?;
    found.retain(|path| path.parent() == Some(&folder));
    Ok(found)
}

/// The wrong programs of a crate, edit by edit.
pub fn programs_of(root: &Path, in_crate: &str) -> Result<Vec<WrongProgram>> {
    let mut found = Vec::new();
    for edit in edits_of(root, in_crate)? {
        let label = files::name(&edit.with_extension(""));
        let programs = read_edit(in_crate, &label, &files::read(root, &edit)?);
        found.extend(programs.map_err(|error| format!("{}: {error}", edit.display()))?);
    }
    Ok(found)
}

/// The wrong programs of all crates.
pub fn wrong_programs(root: &Path) -> Result<Vec<WrongProgram>> {
    let mut found = Vec::new();
    for in_crate in files::crate_names(root)? {
        found.extend(programs_of(root, &in_crate)?);
    }
    Ok(found)
}

/// A line for each wrong program: crate, edit, name, what is wrong, where it differs.
pub fn listed(root: &Path) -> Result<Vec<String>> {
    let programs = wrong_programs(root)?;
    Ok(programs
        .iter()
        .map(|p| {
            [&p.in_crate, &p.label, &p.name, &p.what, &p.differs]
                .map(|s| s.as_str())
                .join("\t")
        })
        .collect())
}

#[cfg(test)]
mod tests {
    use super::*;
    use crate::sample::Sample;

    fn named(name: &str) -> WrongProgram {
        let text = format!("file: src/lib.rt\n# {name}: what\nold: a\nnew: b\n");
        read_edit("c", "wrong_1", &text).unwrap().remove(0)
    }

    #[test]
    fn a_function_is_refused_by_its_own_proof_and_a_law_by_its_file() {
        let in_folders = |first: &str, second: &str| {
            let names = ["Answers", "Invariants", "Proof"];
            [first, second].map(|folder| names.map(|name| format!("proofs/{folder}/{name}.antt")))
        };
        assert_eq!(
            named("m::T::f").proofs(),
            in_folders("m/T/f", "m/T/+f").as_flattened()
        );
        assert_eq!(named("f").proofs(), in_folders("f", "+f").as_flattened());
        assert_eq!(named("m::T::f").function(), "f");
        assert_eq!(
            named("capi::Accepted.answer-if").proofs(),
            ["proofs/capi/Accepted.antt"]
        );
        assert!(named("Laws.a").is_law() && !named("f").is_law());
    }

    #[test]
    fn edits_are_listed_in_order() {
        let sample = Sample::new(&[
            (
                "crates/b/must-fail/wrong_1.edit",
                "file: src/lib.rt\n# f: one; differs where 0\nold: a\nnew: b\n",
            ),
            (
                "crates/a/must-fail/wrong_2.edit",
                "file: src/lib.rt\n# g: two\nold: a\nnew: b\n",
            ),
            (
                "crates/a/must-fail/wrong_10.edit",
                "file: src/lib.rt\n# h: ten\nold: a\nnew: b\n",
            ),
            ("crates/a/must-fail/notes.txt", "# k: none\n"),
        ]);
        let lines = listed(sample.root()).unwrap();
        assert_eq!(
            lines,
            [
                "a\twrong_10\th\tten\t",
                "a\twrong_2\tg\ttwo\t",
                "b\twrong_1\tf\tone\t0"
            ]
        );
    }
}

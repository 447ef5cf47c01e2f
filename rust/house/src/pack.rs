//! Packs the wrong programs of each crate into as few must-fail edits as will do.
//!
//! A try costs a check, so what counts is the number of tries. Two wrong programs share an edit unless
//! - they are of one function, or of one law;
//! - one edits a file of specs/ that the other's proof or contract rests on, file by file through the `use` lines;
//! - one's law stands in a file of laws that the other's proof rests on;
//! - one changes a constant that the other's function reads;
//! - their texts cannot both be replaced.
//!
//! A function that calls another is no reason: its proof rests on the callee's contract alone, which neither changes.
//!
//! The edits are named wrong_1.edit, wrong_2.edit, ..; those of an earlier run stay as they are and only grow, unless
//! two in one are of one function or law, meet in a constant, or cannot both be replaced. What rests on what is asked
//! of new ones alone, since file by file it says too much: many statements of one file share an edit, each refused by
//! its own law. So to add a wrong program, write it into an edit of any name and run this. Labels that the papers in
//! docs/ cite are set right. tests/wrong_programs.py asks of each wrong program that its own proof is refused.

mod clash;
mod groups;
mod imports;
mod papers;

use crate::citations::Owners;
use crate::edits::{self, WrongProgram};
use crate::files::{self, Result};
use crate::sources;
use clash::Clashes;
use papers::Packed;
use std::path::{Path, PathBuf};

/// The number of a label that an earlier run gave, wrong_NUMBER.
fn packed_number(label: &str) -> Option<usize> {
    let digits = label.strip_prefix("wrong_")?;
    let all_digits = digits.chars().all(|c| c.is_ascii_digit());
    digits.parse().ok().filter(|_| all_digits)
}

fn edits_folder(in_crate: &str) -> PathBuf {
    files::crate_folder(in_crate).join("must-fail")
}

/// Packs the named crates, or all, and says what it did.
pub fn pack(root: &Path, crates: &[&str]) -> Result<Vec<String>> {
    let all = files::crate_names(root)?;
    let mut named: Vec<&str> = crates.to_vec();
    if named.is_empty() {
        named.extend(all.iter().map(String::as_str));
    }
    named.retain(|in_crate| root.join(edits_folder(in_crate)).is_dir());
    let (mut said, mut now) = (Vec::new(), Packed::default());
    for in_crate in named {
        let edits = packed(root, in_crate, &mut now)?;
        edits.write(root)?;
        said.extend(edits.said);
    }
    for (paper, text) in papers_of(root, &now)? {
        files::write(root, &paper, &text)?;
    }
    Ok(said)
}

/// The papers whose labels are to be set right, with their texts.
fn papers_of(root: &Path, now: &Packed) -> Result<Vec<(PathBuf, String)>> {
    let (mut functions, mut found) = (Vec::new(), Vec::new());
    for in_crate in files::crate_names(root)? {
        functions.extend(sources::functions(root, &in_crate)?);
    }
    let owners = Owners::of(functions.iter());
    for paper in files::with_suffix(root, Path::new("docs"), "md")? {
        let text = files::read(root, &paper)?;
        let right = now.set_right(&text, &owners);
        if right != text {
            found.push((paper, right));
        }
    }
    Ok(found)
}

/// The edits of a crate as they are and as they will be.
struct Edits {
    said: Vec<String>,
    before: Vec<PathBuf>,
    after: Vec<(PathBuf, String)>,
}

impl Edits {
    fn write(&self, root: &Path) -> Result<()> {
        for edit in &self.before {
            files::remove(root, edit)?;
        }
        for (edit, text) in &self.after {
            files::write(root, edit, text)?;
        }
        Ok(())
    }
}

/// Packs one crate, and notes where each wrong program goes. Writes nothing yet.
fn packed(root: &Path, in_crate: &str, now: &mut Packed) -> Result<Edits> {
    let programs = edits::programs_of(root, in_crate)?;
    if let Some(empty) = programs.iter().find(|program| program.changes.is_empty()) {
        return Err(format!("{}: changes nothing", empty.cited()));
    }
    let clashes = Clashes::read(root, in_crate, &programs)?;
    let stale = (0..programs.len()).filter(|number| !clashes.apply(&[*number]));
    let mut said: Vec<String> = stale
        .map(|number| format!("{}: no longer applies", programs[number].cited()))
        .collect();
    let before = edits::edits_of(root, in_crate)?;
    let mut after = Vec::new();
    for (number, group) in (1..).zip(groups::grouped(&clashes)) {
        let label = format!("wrong_{number}");
        let group: Vec<&WrongProgram> = group.iter().map(|at| &programs[*at]).collect();
        let path = edits_folder(in_crate).join(format!("{label}.edit"));
        after.push((path, edits::text_of(in_crate, &group)));
        group.iter().for_each(|program| now.note(program, &label));
    }
    let (count, were, are) = (programs.len(), before.len(), after.len());
    said.push(format!(
        "{in_crate}: {count} wrong programs, {were} edits are now {are}"
    ));
    Ok(Edits {
        said,
        before,
        after,
    })
}

#[cfg(test)]
mod tests {
    use super::*;
    use crate::sample::Sample;

    const EDITS: &str = "crates/c/must-fail";

    const PAPER: &str =
        "| Function | Wrong |\n|---|---|\n| `c::h` | four (`other`): 0 |\n\n`more` and `wrong_1`\n";

    fn program(name: &str, what: &str, old: &str) -> String {
        format!("# {name}: {what}; differs where 0\nold: {old}\nnew: 0\n")
    }

    fn sample() -> Sample {
        let of_f = program("f", "one", "a + 1") + &program("g", "two", "b + 2");
        Sample::new(&[
            (
                "crates/c/src/lib.rt",
                "fn f() { a + 1 }\nfn g() { b + 2 }\npub fn h() { c + 3 }\n",
            ),
            (
                &format!("{EDITS}/wrong_1.edit"),
                &format!("file: src/lib.rt\n{of_f}"),
            ),
            (
                &format!("{EDITS}/more.edit"),
                &format!("file: src/lib.rt\n{}", program("f", "three", "a + 1")),
            ),
            (
                &format!("{EDITS}/other.edit"),
                &format!("file: src/lib.rt\n{}", program("h", "four", "c + 3")),
            ),
            ("docs/A.md", PAPER),
        ])
    }

    #[test]
    fn packed_edits_only_grow_and_the_papers_follow() {
        let sample = sample();
        let said = pack(sample.root(), &[]).unwrap();
        assert_eq!(said, ["c: 4 wrong programs, 3 edits are now 2"]);
        let head = "# Wrong programs and statements of c, at most one for each function or law.\nfile: src/lib.rt\n";
        let first = program("f", "one", "a + 1")
            + &program("g", "two", "b + 2")
            + &program("h", "four", "c + 3");
        assert_eq!(
            sample.read(&format!("{EDITS}/wrong_1.edit")),
            format!("{head}{first}")
        );
        let second = program("f", "three", "a + 1");
        assert_eq!(
            sample.read(&format!("{EDITS}/wrong_2.edit")),
            format!("{head}{second}")
        );
        assert!(!sample.root().join(EDITS).join("more.edit").exists());
        assert_eq!(
            sample.read("docs/A.md"),
            PAPER.replace("other", "wrong_1").replace("more", "wrong_2")
        );
        assert_eq!(
            pack(sample.root(), &["c"]).unwrap(),
            ["c: 4 wrong programs, 2 edits are now 2"]
        );
        assert_eq!(
            sample.read(&format!("{EDITS}/wrong_2.edit")),
            format!("{head}{second}")
        );
    }

    #[test]
    fn one_that_does_not_apply_is_said() {
        let sample = sample().with(&[(
            "crates/c/src/lib.rt",
            "fn f() { a + 1 }\nfn g() { b + 2 }\n",
        )]);
        let said = pack(sample.root(), &["c"]).unwrap();
        assert_eq!(said[0], "c/other: h: four: no longer applies");
    }

    #[test]
    fn one_that_changes_nothing_is_an_error_and_nothing_is_written() {
        let sample =
            sample().with(&[("crates/c/must-fail/x.edit", "file: src/lib.rt\n# f: five\n")]);
        assert!(pack(sample.root(), &["c"]).is_err_and(|error| error.ends_with("changes nothing")));
        assert!(sample.root().join(EDITS).join("more.edit").exists());
    }

    #[test]
    fn the_edits_of_this_repository_are_packed() {
        let root = Path::new(env!("CARGO_MANIFEST_DIR")).join("../..");
        let (mut now, mut read) = (Packed::default(), 0);
        for in_crate in files::crate_names(&root).unwrap() {
            let edits = packed(&root, &in_crate, &mut now).unwrap();
            assert_eq!(edits.before.len(), edits.after.len(), "{in_crate}");
            for (edit, text) in edits.after {
                assert!(edits.before.contains(&edit), "{}", edit.display());
                assert_eq!(files::read(&root, &edit).unwrap(), text);
                read += 1;
            }
        }
        assert!(read > 20);
        assert_eq!(papers_of(&root, &now).unwrap(), []);
    }

    #[test]
    fn labels_of_an_earlier_run() {
        assert_eq!(packed_number("wrong_12"), Some(12));
        assert_eq!(
            ["wrong_", "wrong_1a", "wrong_+1", "more"].map(packed_number),
            [None; 4]
        );
    }
}

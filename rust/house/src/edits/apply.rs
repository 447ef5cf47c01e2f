//! Makes a wrong program in a copy of the repository.

use super::{WrongProgram, wrong_programs};
use crate::files::{self, Result};
use std::collections::BTreeSet;
use std::path::Path;

impl WrongProgram {
    /// The files that it changes.
    pub fn files(&self) -> BTreeSet<&str> {
        self.changes
            .iter()
            .map(|change| change.file.as_str())
            .collect()
    }
}

/// A file's text with the program's changes, or nothing where one of them does not apply exactly once.
pub fn changed(text: &str, program: &WrongProgram, file: &str) -> Option<String> {
    let mut text = text.to_string();
    for change in program.changes.iter().filter(|change| change.file == file) {
        if text.matches(&change.old).count() != 1 {
            return None;
        }
        text = text.replace(&change.old, &change.new);
    }
    Some(text)
}

/// Makes the one wrong program of a name. The name's end is enough, so that a function that moves to another module or
/// crate is still found.
pub fn apply(root: &Path, name: &str, what: &str) -> Result<()> {
    let mut found = wrong_programs(root)?;
    let end = format!("::{name}");
    found.retain(|program| format!("::{}", program.name).ends_with(&end) && program.what == what);
    let [program] = &found[..] else {
        return Err(format!(
            "{name}: {what}: {} wrong programs have that name",
            found.len()
        ));
    };
    for file in program.files() {
        let path = program.path(file);
        let Some(text) = changed(&files::read(root, &path)?, program, file) else {
            return Err(format!(
                "{}: {name}: {what}: no longer applies",
                root.join(path).display()
            ));
        };
        files::write(root, &path, &text)?;
    }
    Ok(())
}

#[cfg(test)]
mod tests {
    use super::*;
    use crate::sample::Sample;

    fn sample(source: &str) -> Sample {
        let edit = "file: src/lib.rt\n# m::f: less\nold: a + 1\nnew: a - 1\nold: b\nnew: c\n\
            # g: less\nold: q\nnew: r\n";
        Sample::new(&[
            ("crates/c/src/lib.rt", source),
            ("crates/c/must-fail/wrong_1.edit", edit),
        ])
    }

    #[test]
    fn the_one_of_that_name_is_made() {
        let sample = sample("a + 1; b; q");
        apply(sample.root(), "f", "less").unwrap();
        assert_eq!(sample.read("crates/c/src/lib.rt"), "a - 1; c; q");
    }

    #[test]
    fn another_name_or_another_fault_is_an_error() {
        let sample = sample("a + 1; b; q");
        for (name, what) in [("f", "more"), ("x", "less"), ("m", "less"), ("::f", "less")] {
            assert!(
                apply(sample.root(), name, what)
                    .unwrap_err()
                    .contains("0 wrong programs")
            );
        }
    }

    #[test]
    fn a_text_that_is_not_there_once_is_an_error() {
        for source in ["a + 1; q", "a + 1; a + 1; b; q"] {
            let sample = sample(source);
            assert!(
                apply(sample.root(), "m::f", "less")
                    .unwrap_err()
                    .ends_with("no longer applies")
            );
            assert_eq!(sample.read("crates/c/src/lib.rt"), source);
        }
    }
}

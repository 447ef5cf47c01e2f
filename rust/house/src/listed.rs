//! What crates.txt says of each crate.

use crate::files::{self, Result};
use std::path::Path;

/// A line of crates.txt: `NAME: NEED ..`, or `NAME staticlib: NEED ..` for a static library.
#[derive(Debug, PartialEq)]
pub struct Listed {
    pub name: String,
    pub is_static: bool,
    /// The libraries below it.
    pub needs: Vec<String>,
}

/// What a line says, if it is no comment. Numbers may stand behind what a crate is, as in `NAME staticlib stack=2: ..`.
fn listed_in(line: &str) -> Option<Listed> {
    let code = line.split('#').next()?;
    let (head, needs) = code.split_once(':').unwrap_or((code, ""));
    let mut words = head.split_whitespace();
    let needs = needs.split(|c: char| c.is_whitespace() || c == ',');
    Some(Listed {
        name: words.next()?.to_string(),
        is_static: words.next() == Some("staticlib"),
        needs: needs
            .filter(|need| !need.is_empty())
            .map(str::to_string)
            .collect(),
    })
}

/// What crates.txt says; nothing where it is not there.
pub fn listed(root: &Path) -> Result<Vec<Listed>> {
    let file = Path::new("crates.txt");
    if !root.join(file).is_file() {
        return Ok(Vec::new());
    }
    let lines = files::lines(root, file)?;
    Ok(lines.iter().filter_map(|line| listed_in(line)).collect())
}

/// Whether crates.txt lists a crate as a static library.
pub fn is_static(root: &Path, in_crate: &str) -> Result<bool> {
    let mut listed = listed(root)?.into_iter();
    Ok(listed.any(|one| one.is_static && one.name == in_crate))
}

#[cfg(test)]
mod tests {
    use super::*;
    use crate::sample::Sample;

    #[test]
    fn names_stand_before_colons_and_outside_comments() {
        let sample = Sample::new(&[("crates.txt", "# a: b\nc: d\n e : f # g\n\nh\n")]);
        let found = listed(sample.root()).unwrap();
        assert_eq!(
            Vec::from_iter(found.iter().map(|one| one.name.as_str())),
            ["c", "e", "h"]
        );
    }

    #[test]
    fn a_line_says_what_a_crate_is_and_what_it_needs() {
        let sample = Sample::new(&[(
            "crates.txt",
            "# a: b\nc: d\n e : f, g # h\n\ni staticlib: c e # for C\nj staticlib stack=2:\nstaticlib: c\nk\n",
        )]);
        let found = listed(sample.root()).unwrap();
        let told: Vec<(&str, bool, String)> = found
            .iter()
            .map(|one| (one.name.as_str(), one.is_static, one.needs.join(" ")))
            .collect();
        let told: Vec<(&str, bool, &str)> = told.iter().map(|(a, b, c)| (*a, *b, &c[..])).collect();
        assert_eq!(
            told,
            [
                ("c", false, "d"),
                ("e", false, "f g"),
                ("i", true, "c e"),
                ("j", true, ""),
                ("staticlib", false, "c"),
                ("k", false, "")
            ]
        );
        assert!(is_static(sample.root(), "i").unwrap());
        assert!(!is_static(sample.root(), "c").unwrap());
    }

    #[test]
    fn without_a_list_nothing_is_listed() {
        let sample = Sample::new(&[("crates/c/src/lib.rt", "")]);
        assert!(listed(sample.root()).unwrap().is_empty());
        assert!(!is_static(sample.root(), "c").unwrap());
    }
}

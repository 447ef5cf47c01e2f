//! The constants that a wrong program changes. They hold for every function that reads them, not for its own alone.

use super::{Change, WrongProgram};
use crate::files::{self, Result};
use crate::scan::{self, Token};
use std::collections::BTreeSet;
use std::path::Path;

impl WrongProgram {
    /// The constants whose lines one of its changes touches.
    pub fn constants_of(&self, root: &Path, change: &Change) -> Result<BTreeSet<String>> {
        let text = files::read(root, &self.path(&change.file))?;
        let lines = lines_around(&text, &change.old).lines();
        Ok(lines.filter_map(constant_of).collect())
    }

    /// The constants whose lines it changes.
    pub fn constants(&self, root: &Path) -> Result<BTreeSet<String>> {
        let mut found = BTreeSet::new();
        for change in &self.changes {
            found.extend(self.constants_of(root, change)?);
        }
        Ok(found)
    }
}

/// The whole lines that a part of a text touches, or nothing where it is no part.
fn lines_around<'a>(text: &'a str, part: &str) -> &'a str {
    let Some(at) = text.find(part) else { return "" };
    let first = text[..at].rfind('\n').map_or(0, |end| end + 1);
    let end = at + part.len();
    let last = text[end..]
        .find('\n')
        .map_or(text.len(), |length| end + length);
    &text[first..last]
}

/// NAME of a line `const NAME: ..`.
fn constant_of(line: &str) -> Option<String> {
    let tokens = scan::tokens(line);
    let texts: Vec<&str> = tokens.iter().map(|token| token.text).collect();
    let at = match texts[..] {
        ["pub", "(", "crate", ")", ..] => 4,
        ["pub", ..] => 1,
        _ => 0,
    };
    match &tokens[at..] {
        [
            Token { text: "const", .. },
            name,
            Token { text: ":", .. },
            ..,
        ] if name.is_word() => Some(name.text.to_string()),
        _ => None,
    }
}

#[cfg(test)]
mod tests {
    use super::*;

    #[test]
    fn constants_by_their_lines() {
        assert_eq!(constant_of("    const A: u8 = 1;").as_deref(), Some("A"));
        assert_eq!(
            constant_of("pub const B_2 : u8 = 1;").as_deref(),
            Some("B_2")
        );
        assert_eq!(
            constant_of("pub(crate) const C: u8 = 1;").as_deref(),
            Some("C")
        );
        for line in [
            "// const A: u8",
            "let const_a: u8 = 1;",
            "fn f(const N: usize)",
            "const fn f()",
            "pub",
        ] {
            assert_eq!(constant_of(line), None, "{line}");
        }
    }

    #[test]
    fn a_part_has_its_whole_lines() {
        assert_eq!(lines_around("ab\ncd\nef\n", "d"), "cd");
        assert_eq!(lines_around("ab\ncd\nef", "b\nc"), "ab\ncd");
        assert_eq!(lines_around("ab", "b"), "ab");
        assert_eq!(lines_around("ab", "x"), "");
    }
}

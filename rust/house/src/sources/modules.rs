//! The modules of a crate, and which of them are shut to other crates.

use super::declared::is_public;
use crate::files::{self, Result};
use crate::scan;
use std::path::{Path, PathBuf};

/// The path of a source's module in its crate; that of lib.rt and main.rt is empty.
pub fn module_of(source: &Path, top: &Path) -> Vec<String> {
    let inner = source
        .strip_prefix(top)
        .unwrap_or(source)
        .with_extension("");
    if inner == Path::new("lib") || inner == Path::new("main") {
        return Vec::new();
    }
    inner
        .iter()
        .map(|step| step.to_string_lossy().into_owned())
        .collect()
}

/// The modules of a text that are not `pub`.
fn shut_in(text: &str) -> Vec<String> {
    let tokens = scan::tokens(text);
    let mut found = Vec::new();
    for (at, three) in tokens.windows(3).enumerate() {
        if three[0].text == "mod"
            && three[1].is_word()
            && three[2].text == ";"
            && !is_public(&tokens[..at])
        {
            found.push(three[1].text.to_string());
        }
    }
    found
}

/// The modules that no other crate sees into; in a program all.
pub fn hidden(root: &Path, top: &Path, sources: &[PathBuf]) -> Result<Vec<Vec<String>>> {
    let mut found = Vec::new();
    for source in sources {
        if *source == top.join("main.rt") {
            found.push(Vec::new());
        }
        for name in shut_in(&files::read(root, source)?) {
            let mut module = module_of(source, top);
            module.push(name);
            found.push(module);
        }
    }
    Ok(found)
}

#[cfg(test)]
mod tests {
    use super::*;

    #[test]
    fn modules_are_named_by_their_folders() {
        let top = Path::new("crates/c/src");
        assert!(module_of(Path::new("crates/c/src/lib.rt"), top).is_empty());
        assert_eq!(module_of(Path::new("crates/c/src/a/b.rt"), top), ["a", "b"]);
        assert_eq!(
            module_of(Path::new("crates/c/src/a/lib.rt"), top),
            ["a", "lib"]
        );
    }

    #[test]
    fn only_pub_modules_are_open() {
        assert_eq!(
            shut_in("pub mod a;\nmod b;\npub(crate) mod c;\n// mod d;\nmod e {}\n"),
            ["b", "c"]
        );
    }
}

//! The builds of the library that are timed.

use std::ffi::OsString;
use std::path::Path;

use crate::library::Library;

const USAGE: &str = "usage: bench [--before SHARED_OBJECT] | --tool PROGRAM FOLDER | \
    --records A.so B.so [A.so B.so ..]";

/// The build that is linked, and an earlier one where the caller names it.
pub struct Builds {
    pub ours: Library,
    pub before: Option<Library>,
}

impl Builds {
    /// What the program's arguments ask for.
    pub fn asked_for(arguments: &[OsString]) -> Result<Self, String> {
        let before = match arguments {
            [] => None,
            [option, path] if option == "--before" => Some(Library::load(Path::new(path))?),
            _ => return Err(USAGE.to_string()),
        };
        Ok(Self {
            ours: Library::linked(),
            before,
        })
    }

    pub fn all(&self) -> impl Iterator<Item = &Library> {
        [&self.ours].into_iter().chain(&self.before)
    }
}

/// Two builds that are loaded, A and B.
pub struct Pair {
    pub builds: [Library; 2],
    /// The paths of both.
    pub paths: String,
}

impl Pair {
    /// The pairs at these paths: an A and its B, the next A and its B, and so on.
    pub fn asked_for(paths: &[OsString]) -> Result<Vec<Self>, String> {
        match paths.as_chunks() {
            (pairs @ [_, ..], []) => pairs.iter().map(Self::load).collect(),
            _ => Err(USAGE.to_string()),
        }
    }

    fn load([a, b]: &[OsString; 2]) -> Result<Self, String> {
        Ok(Self {
            builds: [Library::load(Path::new(a))?, Library::load(Path::new(b))?],
            paths: format!("{} {}", a.display(), b.display()),
        })
    }
}

#[cfg(test)]
mod tests {
    use super::*;

    fn words(words: &[&str]) -> Vec<OsString> {
        words.iter().map(OsString::from).collect()
    }

    fn refusal(arguments: &[&str]) -> Option<String> {
        Builds::asked_for(&words(arguments)).err()
    }

    #[test]
    fn an_earlier_build_is_optional_and_has_to_be_there() {
        assert_eq!(refusal(&[]), None);
        assert_eq!(refusal(&["--before"]).as_deref(), Some(USAGE));
        assert_eq!(refusal(&["--after", "x.so"]).as_deref(), Some(USAGE));
        let absent = refusal(&["--before", "absent.so"]).expect("there is no such file");
        assert!(absent.starts_with("absent.so: "), "{absent}");
    }

    #[test]
    fn pairs_are_whole_and_there_is_at_least_one() {
        let refusal = |paths: &[&str]| Pair::asked_for(&words(paths)).err();
        assert_eq!(refusal(&[]).as_deref(), Some(USAGE));
        assert_eq!(refusal(&["a.so"]).as_deref(), Some(USAGE));
        assert_eq!(refusal(&["a.so", "b.so", "c.so"]).as_deref(), Some(USAGE));
        let absent = refusal(&["absent.so", "b.so"]).expect("there is no such file");
        assert!(absent.starts_with("absent.so: "), "{absent}");
    }
}

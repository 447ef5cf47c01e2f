//! What the rules are asked of.

use super::promises;
use crate::edits::{self, WrongProgram};
use crate::files::{self, Result};
use crate::listed::{self, Listed};
use crate::sources::{self, Function};
use std::path::{Path, PathBuf};

pub struct Repository {
    pub root: PathBuf,
    /// What crates.txt says.
    pub listed: Vec<Listed>,
    /// The crates by name, with their functions.
    pub crates: Vec<(String, Vec<Function>)>,
    pub programs: Vec<WrongProgram>,
    /// The text of docs/PROMISES.md.
    pub paper: String,
    /// The functions that it lists, with the lines where they stand.
    pub promised: Vec<(usize, String)>,
}

impl Repository {
    pub fn read(root: &Path) -> Result<Repository> {
        let mut crates = Vec::new();
        for name in files::crate_names(root)? {
            let functions = sources::functions(root, &name)?;
            crates.push((name, functions));
        }
        let paper = files::read(root, Path::new(promises::PAPER))?;
        Ok(Repository {
            root: root.to_path_buf(),
            listed: listed::listed(root)?,
            crates,
            programs: edits::wrong_programs(root)?,
            promised: promises::promised(&paper),
            paper,
        })
    }

    pub fn functions(&self) -> impl Iterator<Item = &Function> {
        self.crates.iter().flat_map(|(_, functions)| functions)
    }

    pub fn public(&self) -> impl Iterator<Item = &Function> {
        self.functions().filter(|function| function.public)
    }

    /// The functions of a crate.
    pub fn functions_of(&self, in_crate: &str) -> &[Function] {
        let found = self.crates.iter().find(|(name, _)| name == in_crate);
        found.map_or(&[], |(_, functions)| functions)
    }

    pub fn programs_of(&self, in_crate: &str) -> impl Iterator<Item = &WrongProgram> {
        self.programs
            .iter()
            .filter(move |program| program.in_crate == in_crate)
    }

    /// The function that a wrong program is of.
    pub fn function_of(&self, program: &WrongProgram) -> Option<&Function> {
        self.functions_of(&program.in_crate)
            .iter()
            .find(|function| function.path() == program.name)
    }
}

//! Which wrong programs of a crate must not share an edit.

use super::imports::Imports;
use crate::edits::{self, WrongProgram};
use crate::files::{self, Result};
use crate::scan;
use crate::sources;
use std::collections::{BTreeMap, BTreeSet};
use std::path::Path;

/// What one wrong program rests on and changes.
struct Ground {
    /// All files that its proof, and its function's contract, rest on.
    rests_on: BTreeSet<String>,
    constants: BTreeSet<String>,
    body: String,
}

/// The wrong programs of a crate by their numbers.
pub struct Clashes<'a> {
    pub programs: &'a [WrongProgram],
    grounds: Vec<Ground>,
    texts: BTreeMap<&'a str, String>,
}

impl<'a> Clashes<'a> {
    pub fn read(root: &Path, in_crate: &str, programs: &'a [WrongProgram]) -> Result<Clashes<'a>> {
        let functions = sources::functions(root, in_crate)?;
        let mut imports = Imports::new(root, in_crate);
        let (mut grounds, mut texts) = (Vec::new(), BTreeMap::new());
        for program in programs {
            for file in program.files() {
                texts.insert(file, files::read(root, &program.path(file))?);
            }
            let sources = program
                .files()
                .into_iter()
                .filter(|file| file.starts_with("src/"))
                .map(str::to_string);
            let proofs = program
                .proofs()
                .into_iter()
                .filter(|file| imports.has(file));
            let proofs: Vec<String> = proofs.collect();
            let body = functions
                .iter()
                .find(|function| function.path() == program.name)
                .map(|f| f.body.clone());
            grounds.push(Ground {
                rests_on: imports.all_below(sources.chain(proofs).collect())?,
                constants: program.constants(root)?,
                body: body.unwrap_or_default(),
            });
        }
        Ok(Clashes {
            programs,
            grounds,
            texts,
        })
    }

    /// Whether the first changes a constant that the second's function reads.
    fn reaches(&self, one: usize, other: usize) -> bool {
        let (body, own) = (&self.grounds[other].body, self.programs[other].function());
        let mut constants = self.grounds[one].constants.iter();
        constants.any(|constant| constant != own && scan::has_word(body, constant))
    }

    /// Whether the second's proof may rest on what the first changes, for all that can be said file by file.
    fn may_harm(&self, one: usize, other: usize) -> bool {
        let (first, second) = (&self.programs[one], &self.programs[other]);
        let rests_on = &self.grounds[other].rests_on;
        let specs = first
            .files()
            .into_iter()
            .any(|file| file.starts_with("specs/") && rests_on.contains(file));
        let law = first.is_law()
            && first.proofs() != second.proofs()
            && first.proofs().iter().any(|file| rests_on.contains(file));
        specs || law
    }

    /// Whether two wrong programs must never share an edit.
    pub fn collide(&self, one: usize, other: usize) -> bool {
        let same = self.programs[one].name == self.programs[other].name;
        one != other && (same || self.reaches(one, other) || self.reaches(other, one))
    }

    /// Whether two wrong programs are not put into one edit.
    pub fn meet(&self, one: usize, other: usize) -> bool {
        let harm = || self.may_harm(one, other) || self.may_harm(other, one);
        one != other && (self.collide(one, other) || harm())
    }

    /// Whether all texts of some wrong programs can be replaced, one after the other.
    pub fn apply(&self, numbers: &[usize]) -> bool {
        let mut texts: BTreeMap<&str, String> = BTreeMap::new();
        for program in numbers.iter().map(|number| &self.programs[*number]) {
            for file in program.files() {
                let text = texts.get(file).unwrap_or(&self.texts[file]);
                match edits::changed(text, program, file) {
                    Some(text) => texts.insert(file, text),
                    None => return false,
                };
            }
        }
        true
    }
}

#[cfg(test)]
mod tests {
    use super::*;
    use crate::sample::Sample;

    const SOURCE: &str =
        "ghost use Rattle.c.specs.A.{x};\nconst ONE: u8 = 1;\nfn f() { ONE }\nfn g() { 2 }\n";
    const PROGRAMS: &str = "file: src/lib.rt\n# f: 0\nold: { ONE }\nnew: { 0 }\n# g: 1\nold: 2\nnew: 3\n\
        # f: 2\nold: fn f() { ONE }\nnew: fn f() { 2 }\n# g: 3\nold: u8 = 1\nnew: u8 = 2\n\
        file: specs/A.antt\n# Laws.a: 4\nold: 1\nnew: 2\nfile: specs/B.antt\n# More.a: 5\nold: 1\nnew: 2\n\
        # More.b: 6\nold: 3\nnew: 4\n";

    /// The pairs that collide and those that meet, over seven wrong programs.
    fn pairs() -> [Vec<(usize, usize)>; 2] {
        let sample = Sample::new(&[
            ("crates/c/src/lib.rt", SOURCE),
            ("crates/c/specs/A.antt", "x = 1\n"),
            ("crates/c/specs/B.antt", "y = 1\nz = 3\n"),
            ("crates/c/proofs/Laws.antt", "a = x\n"),
            (
                "crates/c/proofs/More.antt",
                "use Rattle.c.proofs.Laws.{a};\n",
            ),
            ("crates/c/must-fail/e.edit", PROGRAMS),
        ]);
        let programs = edits::programs_of(sample.root(), "c").unwrap();
        let clashes = Clashes::read(sample.root(), "c", &programs).unwrap();
        let pairs = (0..7).flat_map(|one| (one + 1..7).map(move |other| (one, other)));
        let (collide, meet) = (pairs.clone(), pairs);
        [
            collide.filter(|(a, b)| clashes.collide(*a, *b)).collect(),
            meet.filter(|(a, b)| clashes.meet(*a, *b)).collect(),
        ]
    }

    #[test]
    fn pairs_that_must_not_share_an_edit() {
        let one_function = [(0, 2), (1, 3)];
        let constant_read = [(0, 3), (2, 3)];
        let definition_rested_on = [(0, 4), (1, 4), (2, 4), (3, 4)];
        let law_rested_on = [(4, 5), (4, 6)];
        let mut never = [&one_function[..], &constant_read].concat();
        never.sort();
        let mut wanted = [&never[..], &definition_rested_on, &law_rested_on].concat();
        wanted.sort();
        assert_eq!(pairs(), [never, wanted]);
    }

    #[test]
    fn texts_that_cannot_both_be_replaced() {
        let edit = "file: src/lib.rt\n# f: 0\nold: a\nnew: b\n# g: 1\nold: a c\nnew: d\n# h: 2\nold: e\nnew: a c e\n";
        let files = [
            ("crates/c/src/lib.rt", "a c e\n"),
            ("crates/c/must-fail/e.edit", edit),
        ];
        let sample = Sample::new(&files);
        let programs = edits::programs_of(sample.root(), "c").unwrap();
        let clashes = Clashes::read(sample.root(), "c", &programs).unwrap();
        assert!((0..3).all(|number| clashes.apply(&[number])));
        assert!(!clashes.apply(&[0, 1]) && clashes.apply(&[0, 2]));
        assert!(!clashes.apply(&[2, 0]));
    }
}

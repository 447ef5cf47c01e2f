//! Says what the crates promise, and what a reader would object to.
//!
//! Reads crates.txt, crates/, the papers and the scripts; writes nothing. Gives a line for each crate (and if asked one
//! for each public function), each objection, a line for each rule, and last 'N passed, M failed': one for each public
//! function, which passes where nothing is objected to it, and one for each rule about all else.
//!
//! Of a public function (`pub`, in modules that are `pub`, in a library; a program and a static library have none, and
//! an `impl` of a trait neither, but for what a `pub` trait of the crate asks for, which is open at each type):
//! - it has no `requires`, since a function open to callers takes any input;
//! - it has an `ensures`, since none is left unstated;
//! - docs/PROMISES.md lists it: in a table whose first column is headed 'Function', the first cell is the function
//!   between backquotes, `crate::module::function`, or `Type::method`, or `las_..` for one in the root of a library,
//!   which C calls by that name;
//! - at least two wrong programs are named by it, or by private functions that it calls in its crate.
//!
//! All else:
//! - every folder of crates/ stands in crates.txt;
//! - each function of a static library, `NAME staticlib: ..` in crates.txt, is `pub extern "C"` under
//!   `#[unsafe(no_mangle)]` alone, and has an `ensures` and no `requires`. One library below, and just one, has in its
//!   root a public function of its name, with the same parameters, result and clauses, letter by letter but for white
//!   space. Its body is the call of that one with its own parameters in their order, and nothing else, and its file
//!   imports no name for clauses that the other's does not;
//! - each public function `las_..` in the root of a library has one such export, and just one;
//! - docs/PROMISES.md lists public functions only, and each once;
//! - every wrong program that it cites, 'what is wrong (`LABEL`): INPUT', stands in that edit with those words, and is
//!   of the row's function, or of the private one behind "in `f`: ", or in the other tables of a statement;
//! - each row of its table of theorems cites at least two;
//! - it says how many wrong programs there are, and how many edits; and also how many are of functions of a crate that
//!   has no public one, since no row can list these. Whether each of the others is cited is not asked;
//! - every wrong program says where it differs: '# NAME: what is wrong; differs where INPUT';
//! - every wrong program of a function changes that function's code, or a constant that it reads, and beside these
//!   nothing but the files of that function's own proof;
//! - no wrong program changes a constant that the function of another one in its edit reads: that one would be refused
//!   for a change that is not its own;
//! - comments, contracts and the prose of *.md end by column 120 (not `use` lines, code, proof terms or edits), rows of
//!   tables by 130, but for docs/PROMISES.md and rows with `<br>`;
//! - no proof has a hole or cites the axioms `lem` and `ac`.
//!
//! What rt makes, crates/NAME/out, is left out.

mod cited;
mod crates;
mod exports;
mod functions;
mod programs;
mod promises;
mod proofs;
mod repository;
mod width;

use crate::files::Result;
use repository::Repository;
use std::path::Path;

/// What an audit says, and how many public functions and rules pass and fail.
#[derive(Default)]
pub struct Report {
    pub lines: Vec<String>,
    summary: Vec<String>,
    passed: usize,
    pub failed: usize,
}

type Rule = (&'static str, fn(&Repository) -> Result<Vec<String>>);

const RULES: [Rule; 11] = [
    ("crates that crates.txt does not list", crates::unlisted),
    (
        "exports to C that differ from their functions, or are not one of each",
        exports::unlike,
    ),
    (
        "promises of what is no public function",
        promises::of_nothing,
    ),
    ("citations of what is no wrong program", cited::of_nothing),
    (
        "theorems that cite fewer than two wrong statements",
        cited::too_few,
    ),
    (
        "counts of wrong programs and edits that are not true",
        cited::miscounted,
    ),
    (
        "wrong programs that do not say where they differ",
        programs::without_input,
    ),
    (
        "wrong programs that change something else than their function",
        programs::of_another,
    ),
    (
        "constants that two wrong programs of one edit meet in",
        programs::meeting,
    ),
    (
        "comments, contracts, prose and tables that are too wide",
        width::too_wide,
    ),
    ("holes and axioms in proofs", proofs::unproved),
];

/// Audits the repository; `each_function` asks for a line for each public function.
pub fn audit(root: &Path, each_function: bool) -> Result<Report> {
    let repository = Repository::read(root)?;
    let mut report = Report {
        lines: crates::table(&repository)?,
        ..Report::default()
    };
    report.ask_functions(&repository, each_function);
    for (rule, objections) in RULES {
        let objections = objections(&repository)?;
        report.lines.extend(
            objections
                .iter()
                .map(|objection| format!("objection: {objection}")),
        );
        report.count(
            usize::from(objections.is_empty()),
            usize::from(!objections.is_empty()),
        );
        report
            .summary
            .push(format!("{:>5} {rule}", objections.len()));
    }
    let last = format!("{} passed, {} failed", report.passed, report.failed);
    report.lines.append(&mut report.summary);
    report.lines.push(last);
    Ok(report)
}

impl Report {
    fn count(&mut self, passed: usize, failed: usize) {
        self.passed += passed;
        self.failed += failed;
    }

    fn ask_functions(&mut self, repository: &Repository, each_function: bool) {
        let (mut asked, mut objected) = (0, 0);
        for function in repository.public() {
            let objections = functions::objections(repository, function);
            let place = function.place();
            self.lines.extend(
                objections
                    .iter()
                    .map(|objection| format!("objection: {place}: {objection}")),
            );
            if each_function {
                let holds = if objections.is_empty() { "ok" } else { "no" };
                let (name, source) = (function.listed_as(), function.source.display());
                self.lines
                    .push(format!("{holds} {name} ({source}:{})", function.line));
            }
            asked += 1;
            objected += usize::from(!objections.is_empty());
        }
        self.count(asked - objected, objected);
        self.summary.push(format!(
            "{objected:>5} public functions to which something is objected of {asked}"
        ));
    }
}

#[cfg(test)]
mod tests {
    use super::*;
    use crate::sample::Sample;

    /// A repository to which nothing is objected.
    pub fn sound() -> Sample {
        Sample::new(&[
            ("crates.txt", "# NAME: what it needs\nc:\n"),
            ("docs/PROMISES.md", PROMISES),
            ("crates/c/src/lib.rt", SOURCE),
            ("crates/c/proofs/f/Proof.antt", "f-meets = refl\n"),
            (
                "crates/c/must-fail/wrong_1.edit",
                &edit("f", "a + ONE", "a"),
            ),
            (
                "crates/c/must-fail/wrong_2.edit",
                &edit("f", "a + ONE", "ONE"),
            ),
        ])
    }

    pub const PROMISES: &str = "2 wrong programs and statements stand in 2 edits: more.\n\n\
        | Function | Does | Wrong |\n|---|---|---|\n| `c::f` | adds | wrong (`wrong_1`): a is 7 |\n";

    pub const SOURCE: &str = "const ONE: u8 = 1;\npub fn f(a: u8) -> u8\n    ensures { result ≡ next a }\n{\n    \
        a + ONE\n}\n";

    pub fn edit(name: &str, old: &str, new: &str) -> String {
        format!("file: src/lib.rt\n# {name}: wrong; differs where a is 7\nold: {old}\nnew: {new}\n")
    }

    /// The objections to the sound repository with some files put in place of its own.
    pub fn objections(files: &[(&str, &str)]) -> Vec<String> {
        let report = audit(sound().with(files).root(), false).unwrap();
        let found = report
            .lines
            .iter()
            .filter_map(|line| line.strip_prefix("objection: "));
        let found: Vec<String> = found.map(str::to_string).collect();
        assert_eq!(found.is_empty(), report.failed == 0);
        found
    }

    #[test]
    fn nothing_is_objected_to_a_sound_repository() {
        let report = audit(sound().root(), true).unwrap();
        assert_eq!(
            report.lines,
            [
                "crate        functions public    src  specs proofs wrong programs edits",
                "c                    1      1      6      0      1              2     2",
                "all                  1      1      6      0      1              2     2",
                "ok c::f (crates/c/src/lib.rt:2)",
                "    0 public functions to which something is objected of 1",
                "    0 crates that crates.txt does not list",
                "    0 exports to C that differ from their functions, or are not one of each",
                "    0 promises of what is no public function",
                "    0 citations of what is no wrong program",
                "    0 theorems that cite fewer than two wrong statements",
                "    0 counts of wrong programs and edits that are not true",
                "    0 wrong programs that do not say where they differ",
                "    0 wrong programs that change something else than their function",
                "    0 constants that two wrong programs of one edit meet in",
                "    0 comments, contracts, prose and tables that are too wide",
                "    0 holes and axioms in proofs",
                "12 passed, 0 failed",
            ]
        );
    }

    #[test]
    fn a_function_and_a_rule_fail_each_by_itself() {
        let sample = sound().with(&[("crates.txt", ""), ("docs/PROMISES.md", "")]);
        let report = audit(sample.root(), true).unwrap();
        assert!(
            report
                .lines
                .contains(&"no c::f (crates/c/src/lib.rt:2)".to_string())
        );
        assert_eq!(report.lines.last().unwrap(), "9 passed, 3 failed");
    }

    #[test]
    fn a_paper_that_is_not_there_is_an_error() {
        let sample = Sample::new(&[("crates/c/src/lib.rt", "")]);
        assert!(
            audit(sample.root(), false).is_err_and(|error| error.starts_with("docs/PROMISES.md: "))
        );
    }

    #[test]
    fn a_folder_without_crates_is_no_repository() {
        let sample = Sample::new(&[("crates.txt", ""), ("docs/PROMISES.md", "")]);
        assert!(
            audit(sample.root(), false)
                .is_err_and(|error| error.ends_with("has no folder crates/"))
        );
    }
}

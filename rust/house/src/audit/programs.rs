//! What is asked of the wrong programs.

use super::repository::Repository;
use crate::edits::{Change, WrongProgram};
use crate::files::Result;
use crate::scan;
use crate::sources::Function;
use std::collections::BTreeSet;
use std::path::Path;

/// Those that do not say where they differ.
pub fn without_input(repository: &Repository) -> Result<Vec<String>> {
    let programs = repository.programs.iter();
    let unsaid = programs.filter(|program| program.differs.is_empty());
    let objected =
        unsaid.map(|program| format!("{}: does not say where it differs", program.cited()));
    Ok(objected.collect())
}

/// Whether a change is of code, and not of a proof, a comment or white space alone.
fn of_code(change: &Change) -> bool {
    let texts = |text| scan::tokens(text).into_iter().map(|token| token.text);
    change.file.starts_with("src/") && texts(&change.old).ne(texts(&change.new))
}

/// Whether a change is made in a function's own code.
fn in_body(program: &WrongProgram, change: &Change, function: &Function) -> bool {
    let code = scan::before_comment(&change.old, "//").trim();
    let in_source = program.path(&change.file) == function.source;
    in_source && !code.is_empty() && function.body.contains(code)
}

/// Whether a function's code has one of some constants.
fn reads_any(function: &Function, constants: &BTreeSet<String>) -> bool {
    let mut constants = constants.iter();
    constants.any(|constant| function.reads(constant))
}

/// Whether a change is of a function's own code, or of a constant that it reads.
fn changes(
    root: &Path,
    program: &WrongProgram,
    change: &Change,
    function: &Function,
) -> Result<bool> {
    let constants = program.constants_of(root, change)?;
    let touches = reads_any(function, &constants) || in_body(program, change, function);
    Ok(touches && of_code(change))
}

/// Those that change something else than their function: its proof would be refused for another's change, or for none.
/// Beside its code they may change its own proof, which goes by the code's conditions; alone that shows nothing.
pub fn of_another(repository: &Repository) -> Result<Vec<String>> {
    let mut found = Vec::new();
    let of_functions = repository
        .programs
        .iter()
        .filter(|program| !program.is_law());
    for program in of_functions {
        let Some(function) = repository.function_of(program) else {
            found.push(format!(
                "{}: {} is no function",
                program.edit(),
                program.name
            ));
            continue;
        };
        let (mut of_it, mut of_others) = (0, 0);
        for change in &program.changes {
            if changes(&repository.root, program, change, function)? {
                of_it += 1;
            } else if !program.proofs().contains(&change.file) {
                of_others += 1;
                found.push(format!("{}: changes something else", program.cited()));
            }
        }
        if of_it + of_others == 0 {
            found.push(format!("{}: changes no code", program.cited()));
        }
    }
    Ok(found)
}

/// The constants that one changes and the function of another in its edit reads. An edit is refused as a whole, so what
/// one changes for all functions must not meet another's.
pub fn meeting(repository: &Repository) -> Result<Vec<String>> {
    let mut found = Vec::new();
    for one in &repository.programs {
        for constant in one.constants(&repository.root)? {
            for other in repository.programs_of(&one.in_crate) {
                let together = one.label == other.label && !std::ptr::eq(one, other);
                let reads = |function: &Function| function.reads(&constant);
                if together && repository.function_of(other).is_some_and(reads) {
                    let (edit, name, reader) = (one.edit(), &one.name, &other.name);
                    found.push(format!(
                        "{edit}: {name} changes {constant}, which {reader} reads"
                    ));
                }
            }
        }
    }
    Ok(found)
}

#[cfg(test)]
mod tests {
    use super::super::tests::{PROMISES, SOURCE, edit, objections};

    const LIB: &str = "crates/c/src/lib.rt";
    const PAPER: &str = "docs/PROMISES.md";
    const THIRD: &str = "crates/c/must-fail/wrong_3.edit";
    const PROOFS: [&str; 7] = [
        "crates/c/proofs/f/Answers.antt",
        "crates/c/proofs/f/Invariants.antt",
        "crates/c/proofs/f/Proof.antt",
        "crates/c/proofs/+f/Answers.antt",
        "crates/c/proofs/g/Answers.antt",
        "crates/c/proofs/Laws.antt",
        "crates/c/specs/S.antt",
    ];

    fn with_program(text: &str) -> Vec<String> {
        let source = SOURCE.replace("a + ONE", "a + ONE // sum");
        let source = format!("{source}fn g() {{\n    9\n}}\nfn h() {{\n    ONE\n}}\n");
        let count = 2 + text.matches("# ").count();
        let paper = PROMISES.replace("2 wrong", &format!("{count} wrong"));
        let paper = paper.replace("2 edits", "3 edits");
        let mut files = vec![(LIB, &source[..]), (THIRD, text), (PAPER, &paper)];
        files.extend(PROOFS.map(|file| (file, "x = refl\nconst ONE: u8 = 1;\n")));
        objections(&files)
    }

    #[test]
    fn one_that_does_not_say_where_it_differs_is_objected_to() {
        let text = edit("f", "a + ONE", "0").replace("; differs where a is 7", "");
        assert_eq!(
            with_program(&text),
            ["c/wrong_3: f: wrong: does not say where it differs"]
        );
        let law = text.replace("# f", "# Laws.f");
        assert_eq!(
            with_program(&law),
            ["c/wrong_3: Laws.f: wrong: does not say where it differs"]
        );
    }

    #[test]
    fn one_that_changes_another_function_is_objected_to() {
        assert_eq!(
            with_program(&edit("f", "9", "8")),
            ["c/wrong_3: f: wrong: changes something else"]
        );
        assert!(with_program(&edit("g", "    9 // nine", "8")).is_empty());
        assert_eq!(
            with_program(&edit("k", "9", "8")),
            ["c/wrong_3: k is no function"]
        );
        assert!(with_program(&edit("Laws.k", "9", "8")).is_empty());
    }

    #[test]
    fn one_may_change_the_proof_of_its_function_beside_its_code() {
        let code = edit("f", "a + ONE", "0");
        let pair =
            |file: &str| format!("file: {file}\nold: refl\nnew: sym\nold: ONE: u8\nnew: ONE: u9\n");
        for file in ["f/Answers", "f/Invariants", "f/Proof", "+f/Answers"] {
            let own = pair(&format!("proofs/{file}.antt"));
            assert!(with_program(&(code.clone() + &own)).is_empty(), "{file}");
            let named = "# f: wrong; differs where a is 7\n";
            assert_eq!(
                with_program(&(named.to_string() + &own)),
                ["c/wrong_3: f: wrong: changes no code"],
                "{file}"
            );
        }
        for file in ["proofs/g/Answers.antt", "proofs/Laws.antt", "specs/S.antt"] {
            assert_eq!(
                with_program(&(code.clone() + &pair(file))),
                ["c/wrong_3: f: wrong: changes something else"; 2],
                "{file}"
            );
        }
    }

    #[test]
    fn one_that_changes_nothing_or_a_comment_is_objected_to() {
        let named = "# f: wrong; differs where a is 7\n";
        assert_eq!(
            with_program(named),
            ["c/wrong_3: f: wrong: changes no code"]
        );
        for (old, new) in [
            ("a + ONE // sum", "a + ONE // no sum"),
            ("// sum", "// no sum"),
            ("a + ONE", " a +  ONE"),
            ("// sum", "0"),
        ] {
            assert_eq!(
                with_program(&edit("f", old, new)),
                ["c/wrong_3: f: wrong: changes something else"],
                "{old}"
            );
        }
        assert!(with_program(&edit("f", "a + ONE // sum", "a // sum")).is_empty());
    }

    #[test]
    fn one_that_changes_a_constant_which_its_function_does_not_read_is_objected_to() {
        assert!(with_program(&edit("f", "ONE: u8 = 1", "ONE: u8 = 2")).is_empty());
        let objected = with_program(&edit("g", "ONE: u8 = 1", "ONE: u8 = 2"));
        assert_eq!(objected, ["c/wrong_3: g: wrong: changes something else"]);
        let constant_and_another = edit("f", "ONE: u8 = 1", "ONE: u8 = 2") + "old: 9\nnew: 8\n";
        assert_eq!(
            with_program(&constant_and_another),
            ["c/wrong_3: f: wrong: changes something else"]
        );
    }

    #[test]
    fn a_constant_that_two_of_one_edit_meet_in_is_objected_to() {
        let one = edit("f", "ONE: u8 = 1", "ONE: u8 = 2");
        let reads = edit("h", "    ONE", "    2");
        assert_eq!(
            with_program(&(one.clone() + &reads)),
            ["c/wrong_3: f changes ONE, which h reads"]
        );
        assert!(with_program(&(one + &edit("g", "    9", "8"))).is_empty());
    }

    #[test]
    fn wrong_programs_of_traits_are_found_by_the_names_of_rt() {
        let with = |text: &str| {
            let source = format!(
                "{SOURCE}impl From<Result<bool, B>> for las_k {{\n    fn from() {{\n        7\n    }}\n}}\n\
                impl<'a> N for C<'a> {{\n    const SIZE: u8 = 4;\n}}\nimpl N for D {{\n    const SIZE: u8 = 5;\n}}\n\
                trait N {{\n    fn n()\n        ensures {{ a }};\n}}\n"
            );
            let count = 2 + text.matches("# ").count();
            let paper = PROMISES.replace("2 wrong", &format!("{count} wrong"));
            let paper = paper.replace("2 edits", "3 edits");
            objections(&[(LIB, &source), (THIRD, text), (PAPER, &paper)])
        };
        let from = edit("Las_kFromResultBoolB::from", "        7", "        8");
        let size =
            |of: &str, old: &str| edit(of, &format!("const SIZE: u8 = {old}"), "const A: u8 = 6");
        assert!(with(&(from + &size("CN::SIZE", "4") + &size("DN::SIZE", "5"))).is_empty());
        assert_eq!(
            with(&size("CN::SIZE", "5")),
            ["c/wrong_3: CN::SIZE: wrong: changes something else"]
        );
        for name in ["Las_kFrom::from", "N::n", "N::SIZE"] {
            assert_eq!(
                with(&edit(name, "        7", "        8")),
                [format!("c/wrong_3: {name} is no function")]
            );
        }
    }
}

//! What is asked of a public function.

use super::repository::Repository;
use crate::sources::{self, Function};

/// What is objected to in the contract of a function that is open to callers.
pub fn of_contract(function: &Function) -> Vec<String> {
    let mut found = Vec::new();
    if function.has("requires") {
        found.push("has a `requires`".to_string());
    }
    if !function.has("ensures") {
        found.push("has no `ensures`".to_string());
    }
    found
}

/// What is objected to in a public function.
pub fn objections(repository: &Repository, function: &Function) -> Vec<String> {
    let mut found = of_contract(function);
    let name = function.listed_as();
    if !repository
        .promised
        .iter()
        .any(|(_, listed)| *listed == name)
    {
        found.push(format!("docs/PROMISES.md does not list `{name}`"));
    }
    let names = sources::with_helpers(function, repository.functions_of(&function.in_crate));
    let count = repository
        .programs_of(&function.in_crate)
        .filter(|program| names.contains(&program.name))
        .count();
    if count < 2 {
        found.push(format!(
            "has {count} wrong programs, of its own and of the private functions it calls"
        ));
    }
    found
}

#[cfg(test)]
mod tests {
    use super::super::tests::{PROMISES, SOURCE, edit, objections};

    const F: &str = "crates/c/src/lib.rt:2: f: ";
    const LIB: &str = "crates/c/src/lib.rt";

    #[test]
    fn a_requires_is_objected_to() {
        let source = SOURCE.replace("    ensures", "    requires { a }\n    ensures");
        assert_eq!(
            objections(&[(LIB, &source)]),
            [format!("{F}has a `requires`")]
        );
        let private = format!("{source}fn g(b: u8)\n    requires {{ b }}\n{{}}\n")
            .replace("    requires { a }\n", "");
        assert!(objections(&[(LIB, &private)]).is_empty());
    }

    #[test]
    fn a_contract_without_ensures_is_objected_to() {
        let source = SOURCE.replace(
            "    ensures { result ≡ next a }\n",
            "    // ensures { a }\n",
        );
        assert_eq!(
            objections(&[(LIB, &source)]),
            [format!("{F}has no `ensures`")]
        );
    }

    #[test]
    fn a_function_that_is_not_promised_is_objected_to() {
        let (intro, _) = PROMISES.split_once("| `c::f`").unwrap();
        let wanted = format!("{F}docs/PROMISES.md does not list `c::f`");
        assert_eq!(objections(&[("docs/PROMISES.md", intro)]), [wanted]);
    }

    #[test]
    fn fewer_than_two_wrong_programs_are_objected_to() {
        let of = "wrong programs, of its own and of the private functions it calls";
        let second = "crates/c/must-fail/wrong_2.edit";
        let of_one = PROMISES.replace("2 wrong", "1 wrong");
        assert_eq!(
            objections(&[(second, ""), ("docs/PROMISES.md", &of_one)]),
            [format!("{F}has 1 {of}")]
        );
        let helper = format!("{SOURCE}fn g() {{ 9 }}\n");
        let edits = [(second, &edit("g", "9", "8")[..])];
        assert_eq!(
            objections(&[(LIB, &helper), edits[0]]),
            [format!("{F}has 1 {of}")]
        );
        let called = helper.replace("a + ONE", "a + ONE + g()");
        assert!(objections(&[(LIB, &called), edits[0]]).is_empty());
    }
}

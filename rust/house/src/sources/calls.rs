//! What a function calls in its crate.

use super::Function;
use crate::scan::{self, Token};
use std::collections::BTreeSet;

/// A call as it is written: the path before the name, whether a dot stands before it, and the name.
#[derive(Debug, PartialEq)]
struct Call<'a> {
    path: Vec<&'a str>,
    method: bool,
    name: &'a str,
}

/// The words before each `::` that leads to the token at `at`, and the number of the first of them.
fn path_before<'a>(tokens: &[Token<'a>], mut at: usize) -> (Vec<&'a str>, usize) {
    let mut path = Vec::new();
    while at >= 3 && scan::ends_with(&tokens[..at], &[":", ":"]) && tokens[at - 3].is_word() {
        at -= 3;
        path.insert(0, tokens[at].text);
    }
    // `<A as B>::`
    if at >= 4 && scan::ends_with(&tokens[..at], &[">", ":", ":"]) && tokens[at - 4].is_word() {
        path.insert(0, tokens[at - 4].text);
    }
    (path, at)
}

/// The number of the name that is called with the `(` at `at`: it stands before it, or before `::<..>`.
fn called(tokens: &[Token], at: usize) -> Option<usize> {
    let mut last = at.checked_sub(1)?;
    let mut depth = usize::from(tokens[last].text == ">");
    if depth > 0 {
        while depth > 0 {
            last = last.checked_sub(1)?;
            depth += usize::from(tokens[last].text == ">");
            depth -= usize::from(tokens[last].text == "<");
        }
        let before = &tokens[..last];
        last = scan::ends_with(before, &[":", ":"]).then(|| last.checked_sub(3))??;
    }
    let begins = |c: char| c.is_ascii_lowercase() || c == '_';
    tokens[last].text.starts_with(begins).then_some(last)
}

fn calls(body: &str) -> Vec<Call<'_>> {
    let tokens = scan::tokens(body);
    let mut found = Vec::new();
    let opening = (0..tokens.len()).filter(|at| tokens[*at].text == "(");
    for at in opening.filter_map(|at| called(&tokens, at)) {
        let (mut path, first) = path_before(&tokens, at);
        path.retain(|step| *step != "crate");
        found.push(Call {
            path,
            method: scan::ends_with(&tokens[..first], &["."]),
            name: tokens[at].text,
        });
    }
    found
}

/// Whether a function's call may mean another one: by the type, the trait or the module that this stands in, or by its
/// name alone. What is called of a parameter, `F::f()`, may be of each type with the trait.
fn means(caller: &Function, call: &Call, other: &Function) -> bool {
    let owner = other.owner.as_ref();
    let fits = match (call.path.last(), owner) {
        (Some(&"Self"), _) => true,
        (Some(step), Some(owner)) => {
            let is_any = caller.generics.iter().any(|one| one == step);
            owner.is_at(step) || is_any && owner.of_trait.is_some()
        }
        (Some(step), None) => other.module.last().is_some_and(|module| module == step),
        (None, _) => call.method == owner.is_some(),
    };
    call.name == other.name && fits
}

/// The paths of a function and of what it rests on in its crate: the private functions that it calls, and those that
/// they call.
pub fn with_helpers(function: &Function, others: &[Function]) -> BTreeSet<String> {
    let (mut seen, mut todo) = (BTreeSet::new(), vec![function]);
    while let Some(one) = todo.pop() {
        if seen.insert(one.path()) {
            let calls = calls(&one.body);
            todo.extend(
                others.iter().filter(|other| {
                    !other.public && calls.iter().any(|call| means(one, call, other))
                }),
            );
        }
    }
    seen
}

#[cfg(test)]
mod tests {
    use super::*;
    use crate::sample::Sample;
    use crate::sources::functions;

    #[test]
    fn calls_with_and_without_paths() {
        let found = calls("{ a::b::f(g(1), crate::h(2)).k(3); Some(4); m!(5) }");
        let names: Vec<(Vec<&str>, bool, &str)> = found
            .into_iter()
            .map(|c| (c.path, c.method, c.name))
            .collect();
        let f = (vec!["a", "b"], false, "f");
        assert_eq!(
            names,
            [
                f,
                (vec![], false, "g"),
                (vec![], false, "h"),
                (vec![], true, "k")
            ]
        );
    }

    #[test]
    fn calls_with_types() {
        let found = calls("{ a::of::<B<C>>(d::<E>()); <F as G>::h(); if 1 < 2 && i > (3) {} }");
        let names: Vec<(Vec<&str>, &str)> = found.into_iter().map(|c| (c.path, c.name)).collect();
        let (of, h) = ((vec!["a"], "of"), (vec!["G"], "h"));
        assert_eq!(names, [of, (vec![], "d"), h]);
    }

    #[test]
    fn helpers_of_traits_are_called_by_type_trait_and_parameter() {
        let sample = Sample::new(&[(
            "crates/c/src/lib.rt",
            "pub fn f() { las_a::from(1) }\npub fn g<S: T>(s: &S) { S::h(); s.k() }\npub fn l() { T::h() }\n\
            impl From<u8> for las_a { fn from() {} }\nimpl From<u8> for b { fn from() {} }\n\
            impl<'a> T for D<'a> { fn h() { m() } fn k(&self) {} }\nfn m() {}\nimpl D<'_> { fn h() {} }",
        )]);
        let found = functions(sample.root(), "c").unwrap();
        let helpers = |at: usize| Vec::from_iter(with_helpers(&found[at], &found));
        assert_eq!(helpers(0), ["Las_aFromU8::from", "f"]);
        assert_eq!(helpers(1), ["DT::h", "DT::k", "g", "m"]);
        assert_eq!(helpers(2), ["DT::h", "l", "m"]);
    }

    #[test]
    fn helpers_are_private_functions_called_over_any_number_of_steps() {
        let sample = Sample::new(&[
            (
                "crates/c/src/lib.rt",
                "mod m;\npub fn f() { g(); m::h(); open() }\nfn g() {}\npub fn open() { k() }\nfn k() {}",
            ),
            (
                "crates/c/src/m.rt",
                "fn h() { Self::of() }\nfn g() {}\nimpl T {\n fn of() {}\n fn g() {}\n}",
            ),
        ]);
        let found = functions(sample.root(), "c").unwrap();
        let helpers = with_helpers(&found[0], &found);
        assert_eq!(
            Vec::from_iter(helpers),
            ["f", "g", "m::T::of", "m::g", "m::h"]
        );
    }
}

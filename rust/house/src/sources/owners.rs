//! The blocks that functions stand in, `impl` and `trait`, and the names that rt gives them.

use crate::scan::{self, Token};
use std::ops::Range;

/// Whose function one is.
#[derive(Clone, Debug, Default, PartialEq)]
pub struct Owner {
    /// As rt names it: `Type` for `impl Type`, `TypeTraitArguments` for `impl Trait<Arguments> for Type`, `Trait` for
    /// the trait itself. With a trait the parts of `Type` and `Arguments` begin with a capital each; lifetimes and the
    /// parameters of the `impl` itself are left out.
    pub name: String,
    /// The type by its last word.
    pub of_type: String,
    /// The trait by its last word.
    pub of_trait: Option<String>,
}

impl Owner {
    /// Whether a path that ends in a step may lead to its functions.
    pub fn is_at(&self, step: &str) -> bool {
        [&self.name, &self.of_type].contains(&&step.to_string())
            || self.of_trait.as_deref() == Some(step)
    }
}

/// A block of functions.
pub struct Block {
    /// The numbers of its tokens.
    pub inside: Range<usize>,
    /// Whether it is an `impl` of a trait.
    pub fulfils: bool,
    /// Whether it is a trait that is `pub`.
    pub is_open: bool,
    pub owner: Owner,
    /// The names of its parameters, `A` and `N` of `impl<'a, A: B, const N: usize>`.
    pub parameters: Vec<String>,
}

/// The number of the token just past the `>` that closes the `<` at `at`. That of an arrow closes nothing.
pub fn past_angle(tokens: &[Token], at: usize) -> usize {
    let (mut depth, mut number) = (0, at);
    while number < tokens.len() {
        match tokens[number].text {
            "<" => depth += 1,
            ">" if !scan::ends_with(&tokens[..number], &["-"]) => depth -= 1,
            "(" | "[" => number = scan::past_bracket(tokens, number) - 1,
            _ => {}
        }
        number += 1;
        if depth == 0 {
            break;
        }
    }
    number
}

/// The number of the first of some tokens from `at` on that stands in no bracket.
pub fn next_outside(tokens: &[Token], mut at: usize, wanted: &[&str]) -> usize {
    while at < tokens.len() && !wanted.contains(&tokens[at].text) {
        at = match tokens[at].text {
            "(" | "[" => scan::past_bracket(tokens, at),
            "<" => past_angle(tokens, at),
            _ => at + 1,
        };
    }
    at
}

/// What stands between the signs of a kind that are in no bracket; a last part without a token is none.
fn parts<'a, 'b>(tokens: &'b [Token<'a>], sign: &str) -> Vec<&'b [Token<'a>]> {
    let (mut found, mut first) = (Vec::new(), 0);
    while first < tokens.len() {
        let end = next_outside(tokens, first, &[sign]);
        found.push(&tokens[first..end]);
        first = end + 1;
    }
    found
}

/// The names of the parameters between `<` and `>`, if the token at `at` is that, and the number of the token behind.
pub fn parameters(tokens: &[Token], at: usize) -> (Vec<String>, usize) {
    if tokens.get(at).is_none_or(|token| token.text != "<") {
        return (Vec::new(), at);
    }
    let past = past_angle(tokens, at);
    let inside = tokens.get(at + 1..past - 1).unwrap_or_default();
    let names = parts(inside, ",").into_iter().filter_map(|part| {
        let is_number = part.first().is_some_and(|token| token.text == "const");
        let name = part.get(usize::from(is_number))?;
        name.is_name().then(|| name.text.to_string())
    });
    (names.collect(), past)
}

/// The words of a path or type that name something: no step to another module, no lifetime, no parameter.
fn is_named(word: &str, parameters: &[String]) -> bool {
    !["crate", "self", "super"].contains(&word) && !parameters.iter().any(|one| one == word)
}

fn capital(word: &str) -> String {
    let mut rest = word.chars();
    let first = rest.next().into_iter();
    first.flat_map(char::to_uppercase).chain(rest).collect()
}

/// The names in a type, one behind the other.
fn name_of(tokens: &[Token], parameters: &[String]) -> String {
    let (mut name, mut at) = (String::new(), 0);
    while let Some(token) = tokens.get(at) {
        let opens = ["(", "["].contains(&token.text);
        let past = match token.text {
            "(" | "[" => scan::past_bracket(tokens, at),
            "'" => at + 2,
            _ => at + 1,
        };
        let inside = tokens.get(at + 1..past - 1).filter(|_| opens);
        let inside = inside.unwrap_or_default();
        let (types, of_array) = (parts(inside, ","), parts(inside, ";"));
        let called = ["fn", "Fn", "FnMut", "FnOnce"];
        match token.text {
            "&" => name.push_str("Ref"),
            "(" if called
                .iter()
                .any(|one| scan::ends_with(&tokens[..at], &[one])) => {}
            "(" if inside.is_empty() => name.push_str("Unit"),
            "(" if inside.len() > types[0].len() => name.push_str(&format!("Tuple{}", types.len())),
            "[" if of_array.len() > 1 => name.push_str("Array"),
            "[" => name.push_str("Slice"),
            word if token.is_word() && is_named(word, parameters) => name.push_str(&capital(word)),
            _ => {}
        }
        for part in if token.text == "[" { of_array } else { types } {
            name.push_str(&name_of(part, parameters));
        }
        at = past;
    }
    name
}

/// The words of the path that a type begins with, behind `&` and `mut`.
fn path<'a>(tokens: &[Token<'a>]) -> Vec<&'a str> {
    let end = next_outside(tokens, 0, &["(", "["]).min(angle(tokens));
    let words = tokens[..end].iter().enumerate().filter(|(at, token)| {
        let of_lifetime = scan::ends_with(&tokens[..*at], &["'"]);
        token.is_word() && !of_lifetime && token.text != "mut"
    });
    words.map(|(_, token)| token.text).collect()
}

/// The number of the first `<`.
fn angle(tokens: &[Token]) -> usize {
    let found = tokens.iter().position(|token| token.text == "<");
    found.unwrap_or(tokens.len())
}

/// The owner of the functions of `impl TYPE`: rt joins what stands for the type's parameters by `+`.
fn of_type(kind: &[Token], parameters: &[String]) -> Owner {
    let mut steps = path(kind);
    steps.retain(|step| is_named(step, &[]));
    let mut name = steps.join("::");
    let past = past_angle(kind, angle(kind));
    let arguments = kind.get(angle(kind) + 1..past.max(1) - 1);
    for argument in parts(arguments.unwrap_or_default(), ",") {
        let words = path(argument);
        for word in words.into_iter().filter(|word| is_named(word, parameters)) {
            name.push('+');
            name.push_str(word);
        }
    }
    Owner {
        name,
        of_type: steps.last().copied().unwrap_or_default().to_string(),
        of_trait: None,
    }
}

/// The owner of the functions of `impl TRAIT for TYPE`.
fn of_trait(kind: &[Token], of: &[Token], parameters: &[String]) -> Owner {
    let word = path(of).last().copied().unwrap_or_default();
    let arguments = &of[angle(of)..];
    let names = [kind, arguments].map(|part| name_of(part, parameters));
    Owner {
        name: format!("{}{word}{}", names[0], names[1]),
        of_type: path(kind).last().copied().unwrap_or_default().to_string(),
        of_trait: Some(word.to_string()),
    }
}

/// Whether the `impl` at `at` begins a block, and is no type, as in `-> impl A`.
fn begins_block(tokens: &[Token], at: usize) -> bool {
    let before = at.checked_sub(1).map(|before| tokens[before].text);
    before.is_none_or(|before| [";", "{", "}", "]", "unsafe"].contains(&before))
}

/// The block whose `impl` is the token at `at`.
fn of_impl(tokens: &[Token], at: usize) -> Option<Block> {
    let (parameters, first) = parameters(tokens, at + 1);
    let ends = next_outside(tokens, first, &["where", "{", ";"]);
    let opens = next_outside(tokens, ends, &["{", ";"]);
    if tokens.get(opens)?.text != "{" {
        return None;
    }
    let said = &tokens[first..ends];
    let middle = next_outside(said, 0, &["for"]);
    let owner = match said.get(middle + 1..) {
        Some(kind) => of_trait(kind, &said[..middle], &parameters),
        None => of_type(said, &parameters),
    };
    Some(Block {
        inside: at..scan::past_bracket(tokens, opens),
        fulfils: owner.of_trait.is_some(),
        is_open: false,
        owner,
        parameters,
    })
}

/// The block of the trait whose `trait` is the token at `at`.
fn of_declared_trait(tokens: &[Token], at: usize) -> Option<Block> {
    let name = tokens.get(at + 1).filter(|name| name.is_name())?;
    let (parameters, first) = parameters(tokens, at + 2);
    let opens = next_outside(tokens, first, &["{", ";"]);
    if tokens.get(opens)?.text != "{" {
        return None;
    }
    Some(Block {
        inside: at..scan::past_bracket(tokens, opens),
        fulfils: false,
        is_open: scan::ends_with(&tokens[..at], &["pub"]),
        owner: Owner {
            name: name.text.to_string(),
            of_type: name.text.to_string(),
            of_trait: Some(name.text.to_string()),
        },
        parameters,
    })
}

/// The blocks of some tokens, an outer one before those inside it.
pub fn blocks(tokens: &[Token]) -> Vec<Block> {
    let found = (0..tokens.len()).filter_map(|at| match tokens[at].text {
        "impl" if begins_block(tokens, at) => of_impl(tokens, at),
        "trait" => of_declared_trait(tokens, at),
        _ => None,
    });
    found.collect()
}

#[cfg(test)]
mod tests {
    use super::*;

    /// The name of the owner by the line that begins its block.
    fn name(line: &str) -> String {
        let text = format!("{line} {{}}");
        let tokens = scan::tokens(&text);
        let blocks = blocks(&tokens);
        assert_eq!(blocks.len(), 1, "{line}");
        assert_eq!(blocks[0].inside.end, tokens.len(), "{line}");
        blocks[0].owner.name.clone()
    }

    #[test]
    fn owners_as_rt_names_them() {
        for (line, wanted) in [
            ("impl A", "A"),
            ("impl las_point", "las_point"),
            ("impl<'a> Lines<'a>", "Lines"),
            ("impl<A, B: C<A>> Pair<A, B>", "Pair"),
            ("impl Pair<u8, u16>", "Pair+u8+u16"),
            ("impl<A> Pair<u8, A>", "Pair+u8"),
            ("impl deep::Deep", "deep::Deep"),
            ("impl<const N: usize> Four<N>", "Four"),
            ("#[tactic(auto, unfolding(a::b))]\nimpl A", "A"),
            ("#[derive(A)] struct B; impl B", "B"),
            ("unsafe impl A for B", "BA"),
            ("trait Format", "Format"),
            ("pub trait Little: Copy + From<u8>", "Little"),
            ("pub(crate) trait Inner<T> where T: A<[u8; 4]>", "Inner"),
            ("impl fmt::Display for Refusal", "RefusalDisplay"),
            ("impl crate::Format for Deep", "DeepFormat"),
            ("impl Format for u16", "U16Format"),
            ("impl Format for las_point", "Las_pointFormat"),
            ("impl Format for &'a las_point", "RefLas_pointFormat"),
            ("impl Kept for super::las_point", "Las_pointKept"),
            ("impl Kept for deep::Deep", "DeepDeepKept"),
            ("impl<'a> Iterator for Lines<'a>", "LinesIterator"),
            ("impl<A, B> Format for Pair<A, B>", "PairFormat"),
            ("impl<F: Format> X for Y<F>", "YX"),
            ("impl<F> X for Y<F, u8> where F: A, B: C<D>", "YU8X"),
            ("impl<F: Fn(u8) -> u8> X for Y<F>", "YX"),
            (
                "impl<F: Fn(&[u8; 4]) -> Option<u8>, const N: usize> X for Y<F, N>",
                "YX",
            ),
            ("impl<T: Kept> Kept for Box<T>", "BoxKept"),
            ("impl Kept for Option<u8>", "OptionU8Kept"),
            (
                "impl Kept for Result<Deep, [u8; 3]>",
                "ResultDeepArrayU83Kept",
            ),
            ("impl Inner<u8> for (u8, u16)", "Tuple2U8U16InnerU8"),
            ("impl Inner<u8> for [u8; 4]", "ArrayU84InnerU8"),
            (
                "impl Inner<[u8; LENGTH]> for Deep",
                "DeepInnerArrayU8LENGTH",
            ),
            ("impl Inner<[a; 2 + 1]> for a", "AInnerArrayA21"),
            (
                "impl<F> Inner<Option<F>> for Pair<F, a>",
                "PairAInnerOption",
            ),
            ("impl Inner<fn(u8) -> u8> for Deep", "DeepInnerFnU8U8"),
            (
                "impl Inner<Result<super::Lines<'_>, fmt::Error>> for Deep",
                "DeepInnerResultLinesFmtError",
            ),
            ("impl From<las_point> for Point", "PointFromLas_point"),
            ("impl From<crate::deep::Deep> for a", "AFromDeepDeep"),
            ("impl From<u64> for deep::Deep", "DeepDeepFromU64"),
            ("impl From<()> for a", "AFromUnit"),
            ("impl From<&str> for a", "AFromRefStr"),
            ("impl From<&mut u8> for a", "AFromRefMutU8"),
            ("impl<'a> From<&'a [u8]> for a", "AFromRefSliceU8"),
            ("impl<'a> From<Lines<'a>> for a", "AFromLines"),
            (
                "impl From<Option<&[u8; 4]>> for a",
                "AFromOptionRefArrayU84",
            ),
            (
                "impl From<(u8, [(u8, u16); 2], u32)> for a",
                "AFromTuple3U8ArrayTuple2U8U162U32",
            ),
            ("impl<A: Format> From<A> for Pair<A, u8>", "PairU8From"),
            (
                "impl<const N: usize> From<[u8; N]> for Four<N>",
                "FourFromArrayU8",
            ),
            (
                "impl From<Result<Released, ReleaseError>> for las_released",
                "Las_releasedFromResultReleasedReleaseError",
            ),
            (
                "impl From<Result<[bool; 12], Refusal>> for las_mended",
                "Las_mendedFromResultArrayBool12Refusal",
            ),
            (
                "impl From<Result<(usize, Point), Refusal>> for las_point",
                "Las_pointFromResultTuple2UsizePointRefusal",
            ),
            (
                "impl From<Result<header::Header, Refusal>> for las_header",
                "Las_headerFromResultHeaderHeaderRefusal",
            ),
        ] {
            assert_eq!(name(line), wanted, "{line}");
        }
    }

    #[test]
    fn a_type_that_some_trait_is_of_is_no_block() {
        for text in [
            "fn f(a: impl A, b: &impl B) -> impl C { d }",
            "fn f() -> Option<impl A> { for a in b {} }",
            "fn f<F: for<'a> A<'a>>() {}",
        ] {
            assert_eq!(blocks(&scan::tokens(text)).len(), 0, "{text}");
        }
    }

    #[test]
    fn the_parameters_of_a_block() {
        let tokens = scan::tokens("impl<'a, A: B<C, D>, const N: usize> E<'a, A, N> {}");
        let block = &blocks(&tokens)[0];
        assert_eq!(block.parameters, ["A", "N"]);
    }

    #[test]
    fn an_owner_is_led_to_by_its_type_and_its_trait() {
        let tokens = scan::tokens("impl<'a> a::From<Result<b, C>> for d::las_kept<'a> {}");
        let owner = &blocks(&tokens)[0].owner;
        for step in ["las_kept", "From", "DLas_keptFromResultBC"] {
            assert!(owner.is_at(step), "{step}");
        }
        for step in ["a", "d", "C", "Result"] {
            assert!(!owner.is_at(step), "{step}");
        }
    }

    #[test]
    fn what_is_not_closed_ends_nothing() {
        for text in [
            "impl",
            "impl<A",
            "impl A for",
            "trait",
            "trait A",
            "impl A<",
            "trait A<B",
        ] {
            assert_eq!(blocks(&scan::tokens(text)).len(), 0, "{text}");
        }
    }
}

//! The functions that a source's text declares.

use super::owners::{self, Block, Owner};
use crate::scan::{self, Token};

/// A `requires` or an `ensures`, its lines, and its text on one line.
#[derive(Clone, Debug, PartialEq)]
pub struct Clause {
    pub kind: String,
    pub first: usize,
    pub last: usize,
    pub text: String,
}

/// What stands before a function's contract, each on one line.
#[derive(Debug, PartialEq)]
pub struct Signature {
    /// Its attributes and whom it is open to: all before its `fn`.
    pub head: String,
    /// By name and type.
    pub parameters: Vec<String>,
    pub result: String,
}

/// A function as its text declares it.
#[derive(Debug)]
pub struct Declared {
    pub owner: Option<Owner>,
    pub name: String,
    /// The names of its parameters between `<` and `>`, and of those of its `impl`.
    pub generics: Vec<String>,
    pub public: bool,
    pub exported: bool,
    pub signature: Signature,
    pub clauses: Vec<Clause>,
    /// Whether it is more than what a trait asks for, `fn f();`.
    pub is_made: bool,
    pub body: String,
    pub line: usize,
}

/// Whether the tokens before an item make it `pub`, not `pub(crate)`.
pub fn is_public(before: &[Token]) -> bool {
    scan::ends_with(before, &["pub"])
}

/// The functions of a text.
pub fn functions_in(text: &str) -> Vec<Declared> {
    let code = scan::without_comments(text);
    let tokens = scan::tokens(&code);
    let blocks = owners::blocks(&tokens);
    let begins =
        |at: &usize| tokens[*at].text == "fn" && tokens.get(at + 1).is_some_and(Token::is_name);
    let functions = (0..tokens.len()).filter(begins);
    let functions = functions.map(|at| declared(&code, &tokens, at, &blocks));
    let fulfilling = blocks.iter().filter(|block| block.fulfils);
    let constants = fulfilling.flat_map(|block| constants(&code, &tokens, block));
    functions.chain(constants).collect()
}

/// The constants of an `impl` of a trait, which rt proves as functions; each is its own body.
fn constants(code: &str, tokens: &[Token], block: &Block) -> Vec<Declared> {
    let opens = next_of(tokens, block.inside.start, &["{"]);
    let (mut found, mut at) = (Vec::new(), opens + 1);
    while at + 1 < block.inside.end {
        let past = past_item(tokens, at);
        let item = &tokens[at..past.min(block.inside.end)];
        if let [first, name, colon, ..] = item
            && (first.text, colon.text) == ("const", ":")
        {
            let kind = &item[3..next_of(item, 3, &["="])];
            found.push(Declared {
                owner: Some(block.owner.clone()),
                name: name.text.to_string(),
                generics: block.parameters.clone(),
                public: false,
                exported: false,
                signature: Signature {
                    head: String::new(),
                    parameters: Vec::new(),
                    result: text_of(code, kind),
                },
                clauses: Vec::new(),
                is_made: true,
                body: text_of(code, item),
                line: scan::line_at(code, first.at),
            });
        }
        at = past;
    }
    found
}

/// The number of the token behind the next `;` or block from `at` on.
fn past_item(tokens: &[Token], mut at: usize) -> usize {
    while let Some(token) = tokens.get(at) {
        at = match token.text {
            ";" => return at + 1,
            "(" | "[" | "{" => scan::past_bracket(tokens, at),
            _ => at + 1,
        };
        let ends = token.text == "{" && tokens.get(at).is_none_or(|next| next.text != ";");
        if ends {
            return at;
        }
    }
    at
}

/// The function whose `fn` is the token at `at`.
fn declared(code: &str, tokens: &[Token], at: usize, blocks: &[Block]) -> Declared {
    let exported = scan::ends_with(&tokens[..at], &["extern", "\"C\""]);
    let first = if exported { at - 2 } else { at };
    let public = is_public(&tokens[..first]);
    let near = scan::ends_with(&tokens[..first], &["pub", "(", "crate", ")"]);
    let begins = first - usize::from(public) - if near { 4 } else { 0 };
    let (mut generics, opens) = owners::parameters(tokens, at + 2);
    let (signature, next) = signature(code, tokens, at, opens);
    let (clauses, next) = contract(code, tokens, next);
    let block = blocks.iter().rev().find(|one| one.inside.contains(&at));
    generics.extend(block.into_iter().flat_map(|one| one.parameters.clone()));
    Declared {
        owner: block.map(|one| one.owner.clone()),
        name: tokens[at + 1].text.to_string(),
        generics,
        public: public || block.is_some_and(|one| one.is_open),
        exported,
        signature,
        clauses,
        is_made: tokens.get(next).is_none_or(|token| token.text != ";"),
        body: body(code, tokens, next),
        line: scan::line_at(code, tokens[begins].at),
    }
}

/// The number of the next token that is one of these, from `at` on.
fn next_of(tokens: &[Token], at: usize, wanted: &[&str]) -> usize {
    let found = tokens
        .iter()
        .skip(at)
        .position(|token| wanted.contains(&token.text));
    found.map_or(tokens.len(), |steps| at + steps)
}

/// The text of some tokens on one line.
fn text_of(code: &str, tokens: &[Token]) -> String {
    match (tokens.first(), tokens.last()) {
        (Some(first), Some(last)) => scan::on_one_line(&code[first.at..last.end()]),
        _ => String::new(),
    }
}

/// What stands before the `fn` at `at`, without the attributes of the whole file, `#![..]`.
fn head(code: &str, tokens: &[Token], at: usize) -> String {
    let before = &tokens[..at];
    let ends = |token: &Token| [";", "{", "}"].contains(&token.text);
    let mut first = before.iter().rposition(ends).map_or(0, |last| last + 1);
    while text_of(code, &before[first..]).starts_with("#![") {
        first = scan::past_bracket(before, first + 2);
    }
    text_of(code, &before[first..])
}

/// The texts between the commas of some tokens, but for commas in a bracket.
fn between_commas(code: &str, tokens: &[Token]) -> Vec<String> {
    let mut depth = 0;
    let parts = tokens.split(|token| {
        depth += i32::from(["(", "[", "{"].contains(&token.text));
        depth -= i32::from([")", "]", "}"].contains(&token.text));
        depth == 0 && token.text == ","
    });
    let texts = parts.map(|part| text_of(code, part));
    texts.filter(|text| !text.is_empty()).collect()
}

/// The signature of the function whose `fn` is the token at `at` and whose parameters open from `opens` on, and the
/// token behind it.
fn signature(code: &str, tokens: &[Token], at: usize, opens: usize) -> (Signature, usize) {
    let opens = next_of(tokens, opens, &["("]);
    let closed = match opens < tokens.len() {
        true => scan::past_bracket(tokens, opens),
        false => opens,
    };
    let inside = tokens.get(opens + 1..closed.saturating_sub(1));
    let ends = ["where", "requires", "ensures", "{", ";"];
    let result = owners::next_outside(tokens, closed, &ends);
    let next = owners::next_outside(tokens, result, &ends[1..]);
    let signature = Signature {
        head: head(code, tokens, at),
        parameters: between_commas(code, inside.unwrap_or_default()),
        result: text_of(code, &tokens[closed..result]),
    };
    (signature, next)
}

/// The brace of the clause that begins at `at`, if one does: `ensures {`, `ensures name {`, `ensures* name {`.
fn clause_opens(tokens: &[Token], at: usize) -> Option<usize> {
    ["requires", "ensures"]
        .contains(&tokens.get(at)?.text)
        .then_some(())?;
    let starred = tokens.get(at + 1)?.text == "*";
    let named = at + 1 + usize::from(starred);
    let opens = named + usize::from(tokens.get(named)?.is_name());
    (tokens.get(opens)?.text == "{").then_some(opens)
}

/// The clauses that begin at `at`, and the token behind them.
fn contract(code: &str, tokens: &[Token], mut at: usize) -> (Vec<Clause>, usize) {
    let mut clauses = Vec::new();
    while let Some(kind) = tokens.get(at) {
        let Some(opens) = clause_opens(tokens, at) else {
            break;
        };
        let past = scan::past_bracket(tokens, opens);
        clauses.push(Clause {
            kind: kind.text.to_string(),
            first: scan::line_at(code, kind.at),
            last: scan::line_at(code, tokens[past - 1].at),
            text: text_of(code, &tokens[at..past]),
        });
        at = past;
    }
    (clauses, at)
}

/// The text of the next block from `at` on, with its braces, if one comes before a `;`.
fn body(code: &str, tokens: &[Token], at: usize) -> String {
    let opens = next_of(tokens, at, &["{", ";"]);
    if tokens.get(opens).is_none_or(|token| token.text == ";") {
        return String::new();
    }
    let closes = scan::past_bracket(tokens, opens) - 1;
    code[tokens[opens].at..tokens[closes].end()].to_string()
}

#[cfg(test)]
mod tests {
    use super::*;

    fn only(text: &str) -> Declared {
        let mut found = functions_in(text);
        assert_eq!(found.len(), 1);
        found.remove(0)
    }

    #[test]
    fn visibility() {
        assert!(only("pub fn f() {}").public);
        assert!(!only("fn f() {}").public);
        assert!(!only("pub(crate) fn f() {}").public);
        let exported = only("\npub extern \"C\" fn f() {}");
        assert!(exported.public && exported.exported);
        assert_eq!(exported.line, 2);
        assert_eq!(only("\npub(crate)\nfn f() {}").line, 2);
    }

    #[test]
    fn what_stands_before_a_contract() {
        let said = |text: &str| only(text).signature;
        let signature = |head: &str, parameters: &[&str], result: &str| Signature {
            head: head.to_string(),
            parameters: parameters.iter().map(|one| one.to_string()).collect(),
            result: result.to_string(),
        };
        let wide = "use a::b;\n// c\n#[unsafe(no_mangle)]\npub extern \"C\" fn f(\n    a: &[u8], // d\n    \
            b: (u8, [u8; 4]),\n) -> (u8,\n    u16)\n    ensures { c }\n{\n}";
        let parameters = ["a: &[u8]", "b: (u8, [u8; 4])"];
        let head = "#[unsafe(no_mangle)] pub extern \"C\"";
        assert_eq!(said(wide), signature(head, &parameters, "-> (u8, u16)"));
        assert_eq!(said("#![a(b[c])]\nfn f() {}"), signature("", &[], ""));
        assert_eq!(said("#![a]\n#[b]\npub fn f() {}").head, "#[b] pub");
        assert_eq!(
            said("const A: u8 = { 1 } #[b(c)] fn f() {}").head,
            "#[b(c)]"
        );
        assert_eq!(
            said("impl A { pub(crate) fn f(&self) {} }").head,
            "pub(crate)"
        );
        assert_eq!(said("fn f"), signature("", &[], ""));
        assert_eq!(said("#![a fn f("), signature("", &[], ""));
    }

    #[test]
    fn a_contract_and_a_body() {
        let text = "pub fn f(a: &[u8; 4], g: (u8, u8)) -> usize\n    requires { (a) }\n    ensures {\n  {result} }\n{\n\
            // }\n    b\"}\"\n}\nconst A: usize = 1;";
        let function = only(text);
        let lines: Vec<(&str, usize, usize)> = function
            .clauses
            .iter()
            .map(|clause| (clause.kind.as_str(), clause.first, clause.last))
            .collect();
        assert_eq!(lines, [("requires", 2, 2), ("ensures", 3, 4)]);
        let texts: Vec<&str> = function
            .clauses
            .iter()
            .map(|clause| &clause.text[..])
            .collect();
        assert_eq!(texts, ["requires { (a) }", "ensures { {result} }"]);
        assert_eq!(function.body, "{\n    \n    b\"}\"\n}");
    }

    #[test]
    fn clauses_with_names_and_stars() {
        let text = "pub fn f(a: u8) -> u8\n    requires low { a < 9 }\n    requires* { b }\n    ensures* kept { c }\n\
            \n    ensures exact { result ≡ a }\n{\n    a\n}";
        let function = only(text);
        let kinds: Vec<(&str, usize)> = function
            .clauses
            .iter()
            .map(|clause| (clause.kind.as_str(), clause.first))
            .collect();
        assert_eq!(
            kinds,
            [
                ("requires", 2),
                ("requires", 3),
                ("ensures", 4),
                ("ensures", 6)
            ]
        );
        assert_eq!(function.body, "{\n    a\n}");
    }

    #[test]
    fn no_functions_in_comments_strings_and_types() {
        assert!(
            functions_in("// fn f() {}\nconst A: B = \"fn g() {}\"; type F = fn(u8) -> u8;")
                .is_empty()
        );
    }

    #[test]
    fn methods_have_their_type() {
        let found = functions_in(
            "impl A {\n    pub fn f() { if a { b } }\n    fn g() {}\n}\nfn h() {}\nimpl B { fn k() {} }\n\
            impl fmt::Display for B { fn l() { for a in b {} } }\n#[tactic(auto, unfolding(a::b))]\n\
            impl<'a> Iterator for C<'a>\nwhere\n    D: E,\n{\n    type Item = u8;\n\n    \
            ghost next_gives = { λ s. s };\n\n    #[tactic(auto)]\n    fn next(&mut self) -> Option<u8> { None }\n}\n\
            fn m() -> impl A { fn n() {} }\n",
        );
        let owners: Vec<Option<&str>> = found
            .iter()
            .map(|one| one.owner.as_ref().map(|owner| &owner.name[..]))
            .collect();
        assert_eq!(
            owners,
            [
                Some("A"),
                Some("A"),
                None,
                Some("B"),
                Some("BDisplay"),
                Some("CIterator"),
                None,
                None
            ]
        );
        assert_eq!(found[5].signature.head, "#[tactic(auto)]");
        assert!(!found[5].public);
    }

    #[test]
    fn functions_of_a_trait_are_made_where_they_have_a_body() {
        let found = functions_in(
            "pub trait A {\n    ghost SIZE: { ℕ };\n    const SIZE: usize;\n    fn f() -> [u8; 4]\n        \
            ensures { result ≡ a };\n    fn g(&self);\n    fn h(&self) -> u8\n    {\n        1\n    }\n}\n\
            fn k() { 2 }\n",
        );
        let made: Vec<(&str, bool, &str)> = found
            .iter()
            .map(|one| (&one.name[..], one.is_made, &one.body[..]))
            .collect();
        assert_eq!(
            made,
            [
                ("f", false, ""),
                ("g", false, ""),
                ("h", true, "{\n        1\n    }"),
                ("k", true, "{ 2 }")
            ]
        );
        assert_eq!(found[0].signature.result, "-> [u8; 4]");
        assert_eq!(found[0].clauses.len(), 1);
        assert_eq!(found[1].clauses, []);
        assert!(found[..3].iter().all(|one| one.public) && !found[3].public);
        assert_eq!(found[2].owner.as_ref().unwrap().name, "A");
    }

    #[test]
    fn constants_of_a_trait_are_functions() {
        let found = functions_in(
            "trait A {\n    const B: u8;\n}\nconst B: u8 = 0;\nimpl<'a> A for C<'a> {\n    ghost B = { 1 };\n\n    \
            ghost const_ = { x };\n    const B: [u8; 2] = [1; 2];\n\n    fn f() {\n        const D: u8 = 3;\n    }\n\n    \
            const E: u8 = { 2 };\n}\nimpl C<'_> {\n    const F: u8 = 4;\n}\n",
        );
        let names: Vec<(&str, &str, usize)> = found
            .iter()
            .map(|one| (&one.name[..], &one.body[..], one.line))
            .collect();
        let f = "{\n        const D: u8 = 3;\n    }";
        assert_eq!(
            names,
            [
                ("f", f, 11),
                ("B", "const B: [u8; 2] = [1; 2];", 9),
                ("E", "const E: u8 = { 2 };", 15)
            ]
        );
        assert_eq!(found[1].owner.as_ref().unwrap().name, "CA");
        assert_eq!(found[1].signature.result, "[u8; 2]");
    }

    #[test]
    fn a_function_of_any_type() {
        let found = functions_in(
            "impl<A> B<A> {\n    fn f<S: Fn(u8) -> u8, const N: usize>(&self, s: &S, a: [u8; N]) -> [u8; N]\n    where\n\
                    S: C<u8>,\n    requires { a }\n    ensures { b }\n    {\n        s(a)\n    }\n}\n",
        );
        let one = &found[0];
        assert_eq!(one.generics, ["S", "N", "A"]);
        assert_eq!(one.signature.parameters, ["&self", "s: &S", "a: [u8; N]"]);
        assert_eq!(one.signature.result, "-> [u8; N]");
        assert_eq!(one.clauses.len(), 2);
        assert_eq!(one.body, "{\n        s(a)\n    }");
    }

    #[test]
    fn a_function_without_a_body_has_none() {
        assert_eq!(only("fn f()").body, "");
    }
}

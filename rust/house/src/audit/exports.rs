//! What the static libraries export to C: functions of the libraries below them as they are, and each of these once.

use super::functions;
use super::repository::Repository;
use crate::files::{self, Result};
use crate::scan;
use crate::sources::Function;
use std::collections::BTreeSet;

/// What stands before the `fn` of an export.
const HEAD: &str = "#[unsafe(no_mangle)] pub extern \"C\"";

/// The exports of the static libraries, each with the public functions of its name in the roots of the libraries below.
fn exports(repository: &Repository) -> Vec<(&Function, Vec<&Function>)> {
    let mut found = Vec::new();
    for library in repository.listed.iter().filter(|listed| listed.is_static) {
        for export in repository.functions_of(&library.name) {
            let below = repository
                .public()
                .filter(|function| library.needs.contains(&function.in_crate));
            let named = below.filter(|function| function.in_root() && function.name == export.name);
            found.push((export, named.collect()));
        }
    }
    found
}

/// What a function takes, gives and promises.
fn told(function: &Function) -> [(&'static str, String); 3] {
    let clauses = function.clauses.iter().map(|clause| clause.text.as_str());
    [
        ("parameters", function.signature.parameters.join(", ")),
        ("result", function.signature.result.clone()),
        ("clauses", clauses.collect::<Vec<_>>().join(" ")),
    ]
}

/// The names that a source imports for its clauses, with their paths: `A.x` and `A.y` of `ghost use A.{x, y};`.
fn imports(text: &str) -> BTreeSet<String> {
    let code = scan::without_comments(text);
    let tokens = scan::tokens(&code);
    let begins = tokens
        .windows(2)
        .filter(|two| two[0].text == "ghost" && two[1].text == "use");
    let paths = begins.filter_map(|two| code[two[1].end()..].split(';').next());
    let names = paths.flat_map(|path| {
        let (above, names) = path.split_once('{').unwrap_or(("", path));
        let names = names.trim_end().trim_end_matches('}').split(',');
        let names = names.map(scan::on_one_line).filter(|name| !name.is_empty());
        names.map(move |name| format!("{}{name}", above.trim()))
    });
    names.collect()
}

/// The call of a function with the parameters of another one.
fn call_of(path: &str, caller: &Function) -> String {
    let parameters = caller.signature.parameters.iter();
    let names: Vec<&str> = parameters.filter_map(|one| one.split(':').next()).collect();
    format!("{path}({})", names.join(", "))
}

/// Whether a body is that call and nothing else, but for white space and a comma behind the last parameter.
fn is_only(body: &str, call: &str) -> bool {
    let close = |text: &str| text.split_whitespace().collect::<String>();
    close(body).replace(",)", ")") == close(&format!("{{{call}}}"))
}

/// In what an export differs from the function that it has to be.
fn differences(repository: &Repository, export: &Function, own: &Function) -> Result<Vec<String>> {
    let path = format!("{}::{}", own.in_crate, own.path());
    let mut found = Vec::new();
    for ((what, here), (_, there)) in told(export).into_iter().zip(told(own)) {
        if here != there {
            found.push(format!(
                "differs in its {what} from {path}: `{here}`, not `{there}`"
            ));
        }
    }
    let here = imports(&files::read(&repository.root, &export.source)?);
    let there = imports(&files::read(&repository.root, &own.source)?);
    for name in here.difference(&there) {
        found.push(format!(
            "imports `{name}` for its clauses, as {path} does not"
        ));
    }
    let call = call_of(&path, export);
    if !is_only(&export.body, &call) {
        found.push(format!("its body is not `{call}` alone"));
    }
    Ok(found)
}

/// What is objected to in an export, where these are the public functions of its name in the roots of the libraries.
fn objections(
    repository: &Repository,
    export: &Function,
    named: &[&Function],
) -> Result<Vec<String>> {
    let mut found = functions::of_contract(export);
    let head = &export.signature.head;
    if head != HEAD {
        found.push(format!("stands behind `{head}`, not `{HEAD}`"));
    }
    match named {
        [own] => found.extend(differences(repository, export, own)?),
        _ => found.push(format!(
            "{} libraries below have a public function of its name in their root, not 1",
            named.len()
        )),
    }
    Ok(found)
}

/// The exports that are not a function of a library below as it is, and the functions for C that have not one export.
pub fn unlike(repository: &Repository) -> Result<Vec<String>> {
    let exports = exports(repository);
    let mut found = Vec::new();
    for (export, named) in &exports {
        let objections = objections(repository, export, named)?.into_iter();
        found.extend(objections.map(|objection| format!("{}: {objection}", export.place())));
    }
    for function in repository.functions().filter(|one| one.is_for_c()) {
        let is_of = |named: &[&Function]| named.iter().any(|one| std::ptr::eq(*one, function));
        let count = exports.iter().filter(|(_, named)| is_of(named)).count();
        if count != 1 {
            let place = function.place();
            found.push(format!(
                "{place}: static libraries export it {count} times, not once"
            ));
        }
    }
    Ok(found)
}

#[cfg(test)]
mod tests {
    use super::super::promises::PAPER;
    use super::super::tests::{PROMISES, SOURCE, edit, objections};
    use super::*;

    const LISTED: &str = "crates.txt";
    const LIB: &str = "crates/c/src/lib.rt";
    const OVER: &str = "crates/e/src/lib.rt";
    const EXPORT: &str = "#[unsafe(no_mangle)]\npub extern \"C\" fn las_f(a: u8) -> u8\n    \
        ensures { result ≡ next a }\n{\n    c::las_f(a)\n}\n";
    const AT: &str = "crates/e/src/lib.rt:2: las_f: ";
    const NOT_EXPORTED: &str =
        "crates/c/src/lib.rt:2: las_f: static libraries export it 0 times, not once";

    fn library() -> String {
        SOURCE.replace("fn f", "fn las_f")
    }

    /// The objections to the sound repository with `las_f` for `f`, a static library that exports it, and these files.
    fn with(files: &[(&str, &str)]) -> Vec<String> {
        let (paper, library) = (PROMISES.replace("c::f", "las_f"), library());
        let edits = ["a", "ONE"].map(|new| edit("las_f", "a + ONE", new));
        let own = [
            (LISTED, "c:\ne staticlib: c\n"),
            (PAPER, &paper),
            (LIB, &library),
            (OVER, EXPORT),
            ("crates/c/must-fail/wrong_1.edit", &edits[0]),
            ("crates/c/must-fail/wrong_2.edit", &edits[1]),
        ];
        objections(&[&own[..], files].concat())
    }

    /// The objections where the export's text has `new` for `old`.
    fn changed(old: &str, new: &str) -> Vec<String> {
        assert_eq!(EXPORT.matches(old).count(), 1, "{old}");
        with(&[(OVER, &EXPORT.replace(old, new))])
    }

    /// The objections where the library's function has two parameters and two clauses, and the export this text.
    fn with_two(export: &str) -> Vec<String> {
        let (old, clause) = ("(a: u8) -> u8", "    ensures { result ≡ next a }\n");
        let two = "    ensures next { result ≡ next a }\n    ensures same { b.new ≡ b.old }\n";
        let library = library()
            .replace(old, "(a: u8, b: &mut [u8]) -> u8")
            .replace(clause, two);
        with(&[(LIB, &library), (OVER, export)])
    }

    #[test]
    fn an_export_as_its_function_is_not_objected_to() {
        assert!(with(&[]).is_empty());
        let wide = "ghost use A.{b};\n// f\n#[unsafe(no_mangle)]\npub extern \"C\" fn las_f(\n    a: u8, // one\n    \
            b: &mut [u8],\n) -> u8\n    ensures next { result\n        ≡ next a }\n    // both\n    \
            ensures same { b.new ≡ b.old }\n{\n    // all\n    c::las_f(\n        a,\n        b,\n    )\n}\n";
        let without = wide.replace("ghost use A.{b};\n", "");
        assert!(with_two(&without).is_empty());
        assert_eq!(with_two(wide).len(), 1);
    }

    #[test]
    fn an_export_that_is_declared_in_another_way_is_objected_to() {
        let head = "#[unsafe(no_mangle)]\npub extern \"C\"";
        for other in [
            "pub extern \"C\"",
            "#[unsafe(no_mangle)]\nextern \"C\"",
            "#[unsafe(no_mangle)]\npub(crate) extern \"C\"",
            "#[unsafe(no_mangle)]\npub unsafe extern \"C\"",
            "#[unsafe(no_mangle)]\npub",
            "#[unsafe(export_name = \"g\")]\npub extern \"C\"",
            "#[cfg(test)]\n#[unsafe(no_mangle)]\npub extern \"C\"",
        ] {
            let line = 1 + other.matches('\n').count();
            let stands = scan::on_one_line(other);
            assert_eq!(
                changed(head, other),
                [format!(
                    "crates/e/src/lib.rt:{line}: las_f: stands behind `{stands}`, not `{HEAD}`"
                )]
            );
        }
        assert!(changed(head, &format!("#![tactic(auto)]\n{head}")).is_empty());
    }

    #[test]
    fn a_requires_and_a_contract_without_ensures_are_objected_to() {
        let clause = "    ensures { result ≡ next a }\n";
        let differs = |clauses: &str| {
            format!(
                "{AT}differs in its clauses from c::las_f: `{clauses}`, not `ensures {{ result ≡ next a }}`"
            )
        };
        assert_eq!(
            changed(clause, &format!("    requires {{ a }}\n{clause}")),
            [
                format!("{AT}has a `requires`"),
                differs("requires { a } ensures { result ≡ next a }")
            ]
        );
        assert_eq!(
            changed(clause, ""),
            [format!("{AT}has no `ensures`"), differs("")]
        );
        let library = library().replace(clause, "");
        assert_eq!(
            with(&[(LIB, &library), (OVER, &EXPORT.replace(clause, ""))]),
            [
                "crates/c/src/lib.rt:2: las_f: has no `ensures`".to_string(),
                format!("{AT}has no `ensures`")
            ]
        );
    }

    #[test]
    fn other_parameters_and_another_result_are_objected_to() {
        let differs = |what: &str, here: &str, there: &str| {
            format!("{AT}differs in its {what} from c::las_f: `{here}`, not `{there}`")
        };
        let body = "{\n    c::las_f(a)\n";
        for (here, call) in [
            ("b: u8", "b"),
            ("a: u16", "a"),
            ("a: u8, b: u8", "a, b"),
            ("", ""),
        ] {
            let export = EXPORT.replace("a: u8", here);
            let export = export.replace(body, &format!("{{\n    c::las_f({call})\n"));
            assert_eq!(
                with(&[(OVER, &export)]),
                [differs("parameters", here, "a: u8")]
            );
        }
        assert_eq!(
            changed("-> u8", "-> u16"),
            [differs("result", "-> u16", "-> u8")]
        );
        assert_eq!(changed(" -> u8", ""), [differs("result", "", "-> u8")]);
    }

    #[test]
    fn other_clauses_are_objected_to() {
        let (first, second) = (
            "ensures next { result ≡ next a }",
            "ensures same { b.new ≡ b.old }",
        );
        let export = |clauses: &str| {
            format!(
                "#[unsafe(no_mangle)]\npub extern \"C\" fn las_f(a: u8, b: &mut [u8]) -> u8\n    {clauses}\n{{\n    \
                c::las_f(a, b)\n}}\n"
            )
        };
        let both = format!("{first} {second}");
        assert!(with_two(&export(&both)).is_empty());
        for clauses in [
            first.to_string(),
            format!("{second} {first}"),
            format!("{both} {first}"),
            both.replace("same", "kept"),
            both.replace("ensures next", "ensures* next"),
            both.replace("next a", "next 7"),
            both.replace("b.new ≡", "b.new≡"),
        ] {
            let wanted = format!("differs in its clauses from c::las_f: `{clauses}`, not `{both}`");
            assert_eq!(with_two(&export(&clauses)), [format!("{AT}{wanted}")]);
        }
    }

    #[test]
    fn imports_by_their_paths() {
        let text = "use A.a;\nghost use B.C.{a, // c\n    b as c,\n};\nghost\n    use D.◌≡◌ ;\n// ghost use E.a;\n\
            fn f() ghost top: { ℕ } {}\nghost use F.{};\n";
        let found = imports(text);
        assert_eq!(Vec::from_iter(found), ["B.C.a", "B.C.b as c", "D.◌≡◌"]);
    }

    #[test]
    fn names_of_clauses_have_to_be_imported_from_the_same_places() {
        let library = format!("ghost use S.{{x, next, ◌≡◌}};\n{}", library());
        let over = |lines: &str| {
            let found = with(&[(LIB, &library), (OVER, &format!("{lines}{EXPORT}"))]);
            let imports = found
                .iter()
                .map(|line| line.split('`').nth(1).unwrap_or_default());
            imports.map(str::to_string).collect::<Vec<_>>()
        };
        assert!(over("").is_empty());
        assert!(
            over("ghost use S.{ next,\n    ◌≡◌ };\nghost  use S.x;\n// ghost use T.x;\n")
                .is_empty()
        );
        assert_eq!(over("ghost use S.{x, next as y};\n"), ["S.next as y"]);
        assert_eq!(over("ghost\nuse T.{◌≡◌, next};\n"), ["T.next", "T.◌≡◌"]);
        assert_eq!(
            with(&[(OVER, &format!("ghost use T.x;\n{EXPORT}"))]),
            ["crates/e/src/lib.rt:3: las_f: imports `T.x` for its clauses, as c::las_f does not"]
        );
    }

    #[test]
    fn a_body_that_is_more_or_another_call_is_objected_to() {
        for body in [
            "c::las_g(a)",
            "d::las_f(a)",
            "las_f(a)",
            "c::las_f(7)",
            "c::las_f(a);",
            "c::las_f(a) + 0",
            "a",
            "",
        ] {
            let wanted = format!("{AT}its body is not `c::las_f(a)` alone");
            assert_eq!(changed("c::las_f(a)", body), [wanted], "{body}");
        }
        let turned = "#[unsafe(no_mangle)]\npub extern \"C\" fn las_f(a: u8, b: &mut [u8]) -> u8\n    \
            ensures next { result ≡ next a }\n    ensures same { b.new ≡ b.old }\n{\n    c::las_f(b, a)\n}\n";
        assert_eq!(
            with_two(turned),
            [format!("{AT}its body is not `c::las_f(a, b)` alone")]
        );
    }

    #[test]
    fn an_export_of_no_public_function_is_objected_to() {
        let of = |count: usize| {
            format!(
                "{AT}{count} libraries below have a public function of its name in their root, not 1"
            )
        };
        assert_eq!(
            changed("fn las_f", "fn f"),
            [of(0).replace("las_f", "f"), NOT_EXPORTED.to_string()]
        );
        assert_eq!(
            with(&[(LISTED, "c:\nd:\ne staticlib: d\n")]),
            [of(0), NOT_EXPORTED.to_string()]
        );
        let private = "fn g(a: u8) -> u8\n    ensures { result ≡ next a }\n{\n    a\n}\n";
        let others = [
            (LIB, &format!("{}{private}", library())[..]),
            ("crates/c/src/m.rt", &private.replace("fn g", "pub fn g")),
        ];
        let export = format!("{EXPORT}{}", EXPORT.replace("las_f", "g"));
        assert_eq!(
            with(&[others[0], (OVER, &export)]),
            [of(0).replace(":2: las_f", ":8: g")]
        );
        let found = with(&[others[1], (OVER, &export)]);
        assert!(
            found.contains(&of(0).replace(":2: las_f", ":8: g")),
            "{found:?}"
        );
        let library = library();
        let two = [
            (LISTED, "c:\nd:\ne staticlib: c d\n"),
            ("crates/d/src/lib.rt", &library[..]),
        ];
        assert!(with(&two).contains(&of(2)));
    }

    #[test]
    fn a_function_for_c_without_one_export_is_objected_to() {
        assert_eq!(with(&[(OVER, "")]), [NOT_EXPORTED]);
        assert_eq!(with(&[(OVER, ""), (LISTED, "c:\ne: c\n")]), [NOT_EXPORTED]);
        let twice = NOT_EXPORTED.replace("0 times", "2 times");
        assert_eq!(with(&[("crates/e/src/m.rt", EXPORT)]), [twice]);
        let methods = format!(
            "{}impl T {{\n    fn las_g() {{}}\n}}\nfn las_h() {{}}\n",
            library()
        );
        assert!(with(&[(LIB, &methods), ("crates/c/src/m.rt", "fn las_k() {}\n")]).is_empty());
    }
}

//! Reads the functions of a crate's sources: who may call them, their contracts, what they call.

mod calls;
mod declared;
mod modules;
mod owners;

pub use calls::with_helpers;
pub use declared::{Clause, Signature};
pub use owners::Owner;

use crate::files::{self, Result};
use crate::listed;
use crate::scan;
use std::path::{Path, PathBuf};

/// A function of a crate.
#[derive(Debug)]
pub struct Function {
    pub in_crate: String,
    /// The modules that it stands in.
    pub module: Vec<String>,
    /// The type or the trait that it is a function of.
    pub owner: Option<Owner>,
    pub name: String,
    /// The names of its parameters between `<` and `>`, and of those of its `impl`.
    pub generics: Vec<String>,
    /// Open to callers outside its crate.
    pub public: bool,
    /// `extern "C"`, for other languages under its own name.
    pub exported: bool,
    pub signature: Signature,
    pub clauses: Vec<Clause>,
    /// Whether it is more than what a trait asks for, `fn f();`.
    pub is_made: bool,
    pub body: String,
    pub source: PathBuf,
    pub line: usize,
}

impl Function {
    /// Its path in its crate, as the edits name it.
    pub fn path(&self) -> String {
        let steps: Vec<&str> = self
            .module
            .iter()
            .chain(self.owner.as_ref().map(|owner| &owner.name))
            .map(String::as_str)
            .collect();
        [&steps[..], &[self.name.as_str()]].concat().join("::")
    }

    /// Its name in docs/PROMISES.md: `las_..` for C, `Type::method`, else `crate::module::function`.
    pub fn listed_as(&self) -> String {
        match &self.owner {
            _ if self.exported || self.is_for_c() => self.name.clone(),
            Some(owner) if self.public => format!("{}::{}", owner.of_type, self.name),
            Some(owner) => format!("{}::{}", owner.name, self.name),
            None => format!("{}::{}", self.in_crate, self.path()),
        }
    }

    /// Whether it stands in the root of its crate, and is no method.
    pub fn in_root(&self) -> bool {
        self.module.is_empty() && self.owner.is_none()
    }

    /// Whether a static library has to export it to C.
    pub fn is_for_c(&self) -> bool {
        self.public && self.in_root() && self.name.starts_with(FOR_C)
    }

    /// Whether its contract has a clause of a kind.
    pub fn has(&self, kind: &str) -> bool {
        self.clauses.iter().any(|clause| clause.kind == kind)
    }

    /// Whether its code has the name of a constant, other than the one that it is.
    pub fn reads(&self, constant: &str) -> bool {
        constant != self.name && scan::has_word(&self.body, constant)
    }

    /// Where it stands, and its name.
    pub fn place(&self) -> String {
        format!("{}:{}: {}", self.source.display(), self.line, self.name)
    }
}

/// How the names of the functions begin that C calls. They stand in the root of a library, under the name that C knows,
/// and a static library over it exports them.
const FOR_C: &str = "las_";

/// Each function of a crate that has a body, and each constant of an `impl` of a trait, which rt proves as one. A
/// program's are open to nobody, and those of a static library to C alone: what they promise is promised by the
/// function of the library that each calls. What a trait that is open asks for is open at each type, under the trait's
/// contract where it has none of its own.
pub fn functions(root: &Path, in_crate: &str) -> Result<Vec<Function>> {
    let found = declared(root, in_crate)?;
    let (mut made, asked): (Vec<Function>, Vec<Function>) =
        found.into_iter().partition(|function| function.is_made);
    for one in &mut made {
        let of_trait = one.owner.as_ref().and_then(|owner| owner.of_trait.as_ref());
        let in_trait = asked.iter().find(|other| {
            let owner = other.owner.as_ref().map(|owner| &owner.name);
            other.public && other.name == one.name && owner == of_trait
        });
        if let Some(in_trait) = in_trait {
            one.public = true;
            if one.clauses.is_empty() {
                one.clauses = in_trait.clauses.clone();
            }
        }
    }
    Ok(made)
}

/// Each function of a crate, with those that its traits ask for.
pub fn declared(root: &Path, in_crate: &str) -> Result<Vec<Function>> {
    let top = files::crate_folder(in_crate).join("src");
    let is_static = listed::is_static(root, in_crate)?;
    let sources = files::with_suffix(root, &top, "rt")?;
    let hidden = modules::hidden(root, &top, &sources)?;
    let mut found = Vec::new();
    for source in sources {
        let module = modules::module_of(&source, &top);
        let open = !hidden.iter().any(|shut| module.starts_with(shut));
        for one in declared::functions_in(&files::read(root, &source)?) {
            found.push(Function {
                in_crate: in_crate.to_string(),
                module: module.clone(),
                owner: one.owner,
                name: one.name,
                generics: one.generics,
                public: open && one.public && !is_static,
                exported: one.exported,
                signature: one.signature,
                clauses: one.clauses,
                is_made: one.is_made,
                body: one.body,
                source: source.clone(),
                line: one.line,
            });
        }
    }
    Ok(found)
}

#[cfg(test)]
mod tests {
    use super::*;
    use crate::sample::Sample;

    #[test]
    fn a_function_is_public_where_its_modules_are() {
        let sample = Sample::new(&[
            (
                "crates/c/src/lib.rt",
                "pub mod open;\nmod shut;\npub(crate) mod near;\npub fn top() {}\n",
            ),
            (
                "crates/c/src/open.rt",
                "impl T {\n    pub fn method() {}\n}\nfn own() {}\npub(crate) fn near() {}\n",
            ),
            ("crates/c/src/shut.rt", "pub mod inner;\npub fn a() {}\n"),
            ("crates/c/src/shut/inner.rt", "pub fn b() {}\n"),
            ("crates/c/src/near.rt", "pub fn c() {}\n"),
        ]);
        let found = functions(sample.root(), "c").unwrap();
        let public: Vec<String> = found
            .iter()
            .filter(|f| f.public)
            .map(Function::listed_as)
            .collect();
        assert_eq!(public, ["c::top", "T::method"]);
        let paths: Vec<String> = found.iter().map(Function::path).collect();
        assert_eq!(
            paths,
            [
                "top",
                "near::c",
                "open::T::method",
                "open::own",
                "open::near",
                "shut::inner::b",
                "shut::a"
            ]
        );
    }

    #[test]
    fn what_a_public_trait_asks_for_is_public_at_each_type() {
        let sample = Sample::new(&[(
            "crates/c/src/lib.rt",
            "pub trait A {\n    fn f()\n        ensures { a };\n}\ntrait B {\n    fn g();\n}\n\
            impl A for T {\n    fn f() {}\n}\nimpl B for T {\n    fn g() {}\n}\nimpl<'a> C for T<'a> {\n    fn h() {}\n}\n",
        )]);
        let found = functions(sample.root(), "c").unwrap();
        let said: Vec<(String, String, bool, bool)> = found
            .iter()
            .map(|f| (f.path(), f.listed_as(), f.public, f.has("ensures")))
            .collect();
        let wanted = [
            ("TA::f", "T::f", true, true),
            ("TB::g", "TB::g", false, false),
            ("TC::h", "TC::h", false, false),
        ];
        assert_eq!(
            said,
            wanted.map(|(path, listed, a, b)| (path.to_string(), listed.to_string(), a, b))
        );
    }

    #[test]
    fn a_program_has_no_public_function() {
        let sample = Sample::new(&[("crates/c/src/main.rt", "pub fn main() {}\n")]);
        assert!(!functions(sample.root(), "c").unwrap()[0].public);
    }

    #[test]
    fn a_static_library_exports_what_a_library_has() {
        let sample = Sample::new(&[
            ("crates.txt", "c: d\nc_c staticlib: c # for C\n"),
            (
                "crates/c/src/lib.rt",
                "pub mod m;\npub fn las_f() {}\npub fn g() {}\nimpl T {\n    pub fn las_k() {}\n}\nfn las_l() {}\n",
            ),
            ("crates/c/src/m.rt", "pub fn las_h() {}\n"),
            (
                "crates/c_c/src/lib.rt",
                "pub extern \"C\" fn las_f() { c::las_f() }\n",
            ),
        ]);
        let listed = |name: &str| -> Vec<(String, bool)> {
            let found = functions(sample.root(), name).unwrap();
            found.iter().map(|f| (f.listed_as(), f.public)).collect()
        };
        let open = |name: &str| (name.to_string(), true);
        let shut = |name: &str| (name.to_string(), false);
        assert_eq!(
            listed("c"),
            [
                open("las_f"),
                open("c::g"),
                open("T::las_k"),
                shut("c::las_l"),
                open("c::m::las_h")
            ]
        );
        assert_eq!(listed("c_c"), [shut("las_f")]);
        let found = functions(sample.root(), "c").unwrap();
        let for_c: Vec<&str> = found
            .iter()
            .filter(|f| f.is_for_c())
            .map(|f| f.name.as_str())
            .collect();
        assert_eq!(for_c, ["las_f"]);
    }

    #[test]
    fn an_exported_function_is_listed_by_its_name() {
        let sample = Sample::new(&[(
            "crates/c/src/lib.rt",
            "pub extern \"C\" fn las_level() -> u32 { 1 }\n",
        )]);
        let found = functions(sample.root(), "c").unwrap();
        assert_eq!(found[0].listed_as(), "las_level");
        assert_eq!(found[0].place(), "crates/c/src/lib.rt:1: las_level");
    }
}

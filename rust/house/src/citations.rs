//! How the papers cite wrong programs.
//!
//! In a cell of a table, entries joined by `<br>`, each 'what is wrong (`LABEL`): INPUT'. In a table headed 'Function'
//! a row begins with a public function, and its entries are wrong programs of that function or, behind "in `f`: ", of
//! the private function `f` of its crate. All other tables cite wrong statements and definitions.

use crate::edits::WrongProgram;
use crate::sources::Function;
use std::collections::BTreeMap;

/// The crates whose wrong statements and definitions stand in tables of theorems.
const OF_STATEMENTS: [&str; 3] = ["theorems", "lasfile", "publicpart"];

/// A row of a table, without its head.
pub struct Row<'a> {
    pub line: usize,
    /// The first cell of the table's head.
    pub head: &'a str,
    /// The first cell, without backquotes.
    pub first: &'a str,
    pub cells: Vec<&'a str>,
}

/// The rows of a paper's tables.
pub fn rows(text: &str) -> Vec<Row<'_>> {
    let (mut found, mut head) = (Vec::new(), None);
    for (line, row) in (1..).zip(text.lines()) {
        let Some(row) = row.strip_prefix('|') else {
            head = None;
            continue;
        };
        let cells: Vec<&str> = row.split('|').map(str::trim).collect();
        match head {
            None => head = Some(cells[0]),
            Some(_) if !row.contains(|c| !"-:| ".contains(c)) => {}
            Some(head) => found.push(Row {
                line,
                head,
                first: cells[0].trim_matches('`'),
                cells,
            }),
        }
    }
    found
}

/// The crate of each public function and its path there, by its name in the papers.
pub struct Owners(BTreeMap<String, (String, String)>);

impl Owners {
    pub fn of<'a>(functions: impl Iterator<Item = &'a Function>) -> Owners {
        let public = functions.filter(|function| function.public);
        Owners(
            public
                .map(|f| (f.listed_as(), (f.in_crate.clone(), f.path())))
                .collect(),
        )
    }
}

/// A cited wrong program.
#[derive(Debug, PartialEq)]
pub struct Citation<'a> {
    pub line: usize,
    /// The function that its row begins with.
    pub row: Option<&'a str>,
    /// The private function behind "in `f`: ".
    pub within: Option<&'a str>,
    pub what: &'a str,
    pub label: &'a str,
    pub input: &'a str,
}

impl Citation<'_> {
    /// Whether it is that wrong program, whatever the edit that it stands in.
    pub fn is_of(&self, program: &WrongProgram, owners: &Owners) -> bool {
        let is_own = match (self.row, self.within) {
            (None, _) => OF_STATEMENTS.contains(&program.in_crate.as_str()),
            (Some(row), within) => match (owners.0.get(row), within) {
                (Some((in_crate, _)), _) if *in_crate != program.in_crate => false,
                (Some(_), Some(private)) => program.function() == private,
                (Some((_, path)), None) => program.name == *path,
                (None, _) => false,
            },
        };
        is_own && self.what == program.what && self.input == program.differs
    }
}

/// The label that a text begins with, up to the backquote behind it.
pub fn label_at(text: &str) -> Option<&str> {
    let (label, _) = text.split_once('`')?;
    let in_label = |c: char| c.is_ascii_lowercase() || c.is_ascii_digit() || c == '_';
    (!label.is_empty() && label.chars().all(in_label)).then_some(label)
}

/// What is wrong, the label and the input of an entry.
fn parts(entry: &str) -> Option<(&str, &str, &str)> {
    entry.match_indices(" (`").find_map(|(at, mark)| {
        let label = label_at(&entry[at + mark.len()..])?;
        let rest = &entry[at + mark.len() + label.len()..];
        Some((&entry[..at], label, rest.strip_prefix("`): ")?))
    })
}

/// The wrong programs that a row cites.
pub fn cited_in<'a>(row: &Row<'a>) -> Vec<Citation<'a>> {
    let entries = row.cells.iter().flat_map(|cell| cell.split("<br>"));
    let read = entries.filter_map(|entry| {
        let (what, label, input) = parts(entry.trim())?;
        let private = what
            .strip_prefix("in `")
            .and_then(|rest| rest.split_once("`: "));
        Some(Citation {
            line: row.line,
            row: Some(row.first).filter(|_| row.head == "Function"),
            within: private.map(|(function, _)| function),
            what: private.map_or(what, |(_, what)| what),
            label,
            input,
        })
    });
    read.collect()
}

#[cfg(test)]
mod tests {
    use super::*;
    use crate::edits::read_edit;
    use crate::sample::Sample;
    use crate::sources;

    const PAPER: &str = "a `wrong_1`): b\n\n| Function | Equals | Wrong |\n|---|:--|---|\n\
        | `c::m::f` | `x` | w (more) (`wrong_1`): i: 1<br>in `g`: v (`wrong_12`): j (k) |\n| `T::h` | | none, (`Wrong`): i |\n\n\
        | Demand | Wrong |\n|---|---|\n|  | u (`new`): i |\n";

    fn citations() -> Vec<Citation<'static>> {
        rows(PAPER).iter().flat_map(cited_in).collect()
    }

    #[test]
    fn rows_stand_under_a_head() {
        let found = rows(PAPER);
        let firsts: Vec<(usize, &str, &str)> = found
            .iter()
            .map(|row| (row.line, row.head, row.first))
            .collect();
        assert_eq!(
            firsts,
            [
                (5, "Function", "c::m::f"),
                (6, "Function", "T::h"),
                (10, "Demand", "")
            ]
        );
    }

    #[test]
    fn entries_of_the_form_are_citations() {
        let citation = |line, row, within, what, label, input| Citation {
            line,
            row,
            within,
            what,
            label,
            input,
        };
        let row = Some("c::m::f");
        assert_eq!(
            citations(),
            [
                citation(5, row, None, "w (more)", "wrong_1", "i: 1"),
                citation(5, row, Some("g"), "v", "wrong_12", "j (k)"),
                citation(10, None, None, "u", "new", "i"),
            ]
        );
    }

    #[test]
    fn a_citation_is_of_its_rows_function_and_crate() {
        let sample = Sample::new(&[
            ("crates/c/src/lib.rt", "pub mod m;\n"),
            ("crates/c/src/m.rt", "pub fn f() {}\nfn g() {}\n"),
        ]);
        let functions = sources::functions(sample.root(), "c").unwrap();
        let owners = Owners::of(functions.iter());
        let program = |in_crate: &str, comment: &str| {
            let text = format!("file: a\n# {comment}\nold: a\nnew: b\n");
            read_edit(in_crate, "l", &text).unwrap().remove(0)
        };
        let found = citations();
        let is_of = |number: usize, in_crate: &str, comment: &str| {
            found[number].is_of(&program(in_crate, comment), &owners)
        };
        assert!(is_of(0, "c", "m::f: w (more); differs where i: 1"));
        assert!(!is_of(0, "d", "m::f: w (more); differs where i: 1"));
        assert!(!is_of(0, "c", "m::k: w (more); differs where i: 1"));
        assert!(!is_of(0, "c", "m::f: w; differs where i: 1"));
        assert!(!is_of(0, "c", "m::f: w (more); differs where i"));
        assert!(is_of(1, "c", "n::g: v; differs where j (k)"));
        assert!(!is_of(1, "d", "n::g: v; differs where j (k)"));
        assert!(!is_of(1, "c", "m::f: v; differs where j (k)"));
        assert!(is_of(2, "theorems", "Laws.a: u; differs where i"));
        assert!(!is_of(2, "c", "Laws.a: u; differs where i"));
    }
}

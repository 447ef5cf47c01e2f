//! Sets right the labels of edits that the papers cite.

use super::packed_number;
use crate::citations::{self, Citation, Owners};
use crate::edits::WrongProgram;

/// The wrong programs that were packed, each with the label of the edit that it stands in now.
#[derive(Default)]
pub struct Packed(Vec<(WrongProgram, String)>);

impl Packed {
    /// Notes the label of the edit that a wrong program stands in now.
    pub fn note(&mut self, program: &WrongProgram, label: &str) {
        self.0.push((program.clone(), label.to_string()));
    }

    /// A paper's text with its labels set right.
    pub fn set_right(&self, text: &str, owners: &Owners) -> String {
        let rows = citations::rows(text);
        let cited: Vec<Citation> = rows.iter().flat_map(citations::cited_in).collect();
        let (mut right, mut rest) = (String::new(), text);
        while let Some(at) = rest.find('`') {
            right.push_str(&rest[..=at]);
            rest = &rest[at + 1..];
            if let Some(label) = citations::label_at(rest) {
                let citation = cited.iter().find(|one| std::ptr::eq(one.label, label));
                right.push_str(self.now(label, citation, owners));
                right.push('`');
                rest = &rest[label.len() + 1..];
            }
        }
        right + rest
    }

    /// The label that a cited one is now: where the cited wrong program went, the one of that label, or else the only
    /// one, whatever the label that it was cited by; for any other label that no run gave, where the first of its wrong
    /// programs went.
    fn now<'a>(&'a self, label: &'a str, citation: Option<&Citation>, owners: &Owners) -> &'a str {
        let is_cited = |one| citation.is_some_and(|citation| citation.is_of(one, owners));
        let cited: Vec<_> = self.0.iter().filter(|(one, _)| is_cited(one)).collect();
        let of_label = |(one, _): &&(WrongProgram, String)| one.label == label;
        match (cited.iter().copied().find(of_label), &cited[..]) {
            (Some((_, now)), _) | (None, [(_, now)]) => now,
            _ if packed_number(label).is_some() => label,
            _ => self.0.iter().find(of_label).map_or(label, |(_, now)| now),
        }
    }
}

#[cfg(test)]
mod tests {
    use super::*;
    use crate::sample::Sample;
    use crate::sources;

    fn packed() -> Packed {
        let mut packed = Packed::default();
        let notes = [
            ("c", "m::f", "old", "wrong_1"),
            ("d", "f", "old", "wrong_2"),
            ("d", "T::g", "wrong_3", "wrong_4"),
            ("d", "h", "wrong_3", "wrong_5"),
            ("d", "k", "wrong_3", "wrong_3"),
            ("theorems", "Laws.f", "wrong_3", "wrong_6"),
        ];
        for (in_crate, name, from, to) in notes {
            let program = WrongProgram {
                in_crate: in_crate.to_string(),
                label: from.to_string(),
                name: name.to_string(),
                what: "w".to_string(),
                differs: "i".to_string(),
                changes: Vec::new(),
            };
            packed.note(&program, to);
        }
        packed
    }

    fn right(text: &str) -> String {
        let sample = Sample::new(&[
            ("crates/c/src/lib.rt", "pub mod m;\n"),
            ("crates/c/src/m.rt", "pub fn f() {}\n"),
            (
                "crates/d/src/lib.rt",
                "pub fn f() {}\nimpl T {\n    pub fn g() {}\n}\nfn h() {}\n",
            ),
        ]);
        let functions = ["c", "d"].map(|name| sources::functions(sample.root(), name).unwrap());
        packed().set_right(text, &Owners::of(functions.iter().flatten()))
    }

    #[test]
    fn a_citation_follows_its_wrong_program() {
        let functions = |row: &str| format!("| Function | |\n|---|---|\n{row}\n\n`wrong_3`");
        for (row, wanted) in [
            ("| `c::m::f` | `x` | w (`old`): i |", "w (`wrong_1`): i"),
            ("| `d::f` | `x` | w (`old`): i |", "w (`wrong_2`): i"),
            ("| `T::g` | `x` | w (`wrong_3`): i |", "w (`wrong_4`): i"),
            (
                "| `d::f` | v (`wrong_3`): i<br>in `h`: w (`wrong_3`): i |",
                "v (`wrong_3`): i<br>in `h`: w (`wrong_5`): i",
            ),
            ("| `d::f` | in `h`: w (`wrong_3`): j |", "w (`wrong_3`): j"),
            (
                "| `c::m::f` | in `h`: w (`wrong_3`): i |",
                "w (`wrong_3`): i",
            ),
        ] {
            let found = right(&functions(row));
            assert!(found.contains(wanted), "{found}");
            assert!(found.ends_with("\n\n`wrong_3`"));
        }
        assert_eq!(
            right("| Demand | |\n|---|---|\n| 1 | w (`wrong_3`): i |"),
            "| Demand | |\n|---|---|\n| 1 | w (`wrong_6`): i |"
        );
    }

    #[test]
    fn any_other_label_that_no_run_gave_follows_the_first() {
        assert_eq!(
            right("`wrong_3` and ``old` ` and `older`"),
            "`wrong_3` and ``wrong_1` ` and `older`"
        );
    }
}

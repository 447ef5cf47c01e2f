//! Puts wrong programs into groups, one for each edit.

use super::clash::Clashes;
use super::packed_number;
use std::cmp::Reverse;

/// Whether the texts of a wrong program can be replaced beside those of a group.
fn applies(clashes: &Clashes, number: usize, group: &[usize]) -> bool {
    let mut together = [group, &[number]].concat();
    together.sort();
    clashes.apply(&together)
}

/// Whether a wrong program may stay in a group of an earlier run. What rests on what is not asked: each of the group
/// was tried there, and the gate asks that each is refused by its own proof.
fn stays(clashes: &Clashes, number: usize, group: &[usize]) -> bool {
    let mut others = group.iter();
    !others.any(|other| clashes.collide(number, *other)) && applies(clashes, number, group)
}

/// Whether a wrong program may join a group.
fn fits(clashes: &Clashes, number: usize, group: &[usize]) -> bool {
    let mut others = group.iter();
    !others.any(|other| clashes.meet(number, *other)) && applies(clashes, number, group)
}

/// The groups, with the labels of an earlier run first and in their order.
pub fn grouped(clashes: &Clashes) -> Vec<Vec<usize>> {
    let numbers = 0..clashes.programs.len();
    let label_of = |number: usize| packed_number(&clashes.programs[number].label);
    let mut packed: Vec<usize> = numbers.clone().filter_map(label_of).collect();
    packed.sort();
    packed.dedup();
    let mut groups = vec![Vec::new(); packed.len()];
    let mut left = Vec::new();
    for number in numbers.clone() {
        let own = label_of(number).and_then(|label| packed.binary_search(&label).ok());
        match own.filter(|at| stays(clashes, number, &groups[*at])) {
            Some(at) => groups[at].push(number),
            None => left.push(number),
        }
    }
    // those that clash with most find their places first
    left.sort_by_key(|number| {
        Reverse(
            numbers
                .clone()
                .filter(|other| clashes.meet(*number, *other))
                .count(),
        )
    });
    for number in left {
        match groups.iter().position(|group| fits(clashes, number, group)) {
            Some(at) => groups[at].push(number),
            None => groups.push(vec![number]),
        }
    }
    groups.retain(|group| !group.is_empty());
    groups
}

#[cfg(test)]
mod tests {
    use super::*;
    use crate::edits;
    use crate::sample::Sample;

    fn edit(programs: &[(&str, &str)]) -> String {
        let texts = programs
            .iter()
            .map(|(name, old)| format!("# {name}: w\nold: {old}\nnew: 0\n"));
        format!("file: src/lib.rt\n{}", texts.collect::<String>())
    }

    /// The names of each group, for the edits of these labels.
    fn groups(edits: &[(&str, &[(&str, &str)])]) -> Vec<Vec<String>> {
        let sample = Sample::new(&[("crates/c/src/lib.rt", "a b c d e\n")]);
        let texts = edits
            .iter()
            .map(|(label, programs)| (format!("crates/c/must-fail/{label}.edit"), edit(programs)));
        let texts: Vec<(String, String)> = texts.collect();
        let sample = texts
            .iter()
            .fold(sample, |sample, (name, text)| sample.with(&[(name, text)]));
        let programs = edits::programs_of(sample.root(), "c").unwrap();
        let clashes = Clashes::read(sample.root(), "c", &programs).unwrap();
        let named = |group: Vec<usize>| group.iter().map(|at| programs[*at].name.clone()).collect();
        grouped(&clashes).into_iter().map(named).collect()
    }

    #[test]
    fn packed_edits_keep_their_order_by_number() {
        let found = groups(&[
            ("wrong_2", &[("f", "a")]),
            ("wrong_10", &[("f", "b")]),
            ("wrong_1", &[("f", "c")]),
        ]);
        assert_eq!(found, [["f"], ["f"], ["f"]]);
        let found = groups(&[
            ("wrong_10", &[("g", "a")]),
            ("wrong_2", &[("h", "b")]),
            ("new", &[("h", "c")]),
        ]);
        assert_eq!(found, [vec!["h"], vec!["g", "h"]]);
    }

    #[test]
    fn one_that_clashes_in_its_edit_moves_and_new_edits_come_last() {
        let found = groups(&[
            ("wrong_1", &[("f", "a"), ("f", "b"), ("g", "c")]),
            ("x", &[("h", "d"), ("f", "e")]),
        ]);
        assert_eq!(found, [vec!["f", "g", "h"], vec!["f"], vec!["f"]]);
    }

    #[test]
    fn statements_of_one_file_stay_together_but_a_new_one_does_not_join_them() {
        let statement = |law: &str, old: &str| format!("# Laws.{law}: w\nold: {old}\nnew: 0\n");
        let first = statement("a", "x = 1") + &statement("b", "y = 2");
        let sample = Sample::new(&[
            ("crates/c/specs/A.antt", "x = 1\ny = 2\nz = 3\n"),
            (
                "crates/c/proofs/Laws.antt",
                "use Rattle.c.specs.A.{x; y; z};\n",
            ),
            (
                "crates/c/must-fail/wrong_1.edit",
                &format!("file: specs/A.antt\n{first}"),
            ),
            (
                "crates/c/must-fail/new.edit",
                &format!("file: specs/A.antt\n{}", statement("c", "z = 3")),
            ),
        ]);
        let programs = edits::programs_of(sample.root(), "c").unwrap();
        let clashes = Clashes::read(sample.root(), "c", &programs).unwrap();
        assert_eq!(grouped(&clashes), [vec![1, 2], vec![0]]);
    }
}

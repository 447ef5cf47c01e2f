//! Class tests on a sheet of 64 lines: the first line answers, or none does.

use std::hint::black_box;

use compare::spec::{LineSpec, SheetSpec};
use korbishaf::sys::las_class_line;

use crate::builds::Builds;
use crate::each;
use crate::library::{Library, Tester};
use crate::timing::{Side, medians, time};

const ROUNDS: usize = 9;
/// How often a class is tested in one turn.
const TESTS: usize = 100_000;
const LINES: u8 = 64;

/// A class that the first line of the sheet holds, and one that none holds.
const CLASSES: [(&str, u8); 2] = [("the first", 0), ("none", LINES)];

/// Times class tests, and prints the figures.
pub fn compare(builds: &Builds) {
    let testers: Vec<Tester> = builds.all().filter_map(Library::tester).collect();
    println!(
        "class tests: medians in ns for each, by the line of {LINES} that answers, and what ours takes of the others' times"
    );
    let table = each::start(testers.len() > 1);
    let sheet = sheet();
    for (name, class) in CLASSES {
        assert_same(&testers, &sheet, class);
        let times = medians(ROUNDS, &sides(&testers, &sheet, class), &mut []);
        table.row(&each::cells(name, TESTS, &times));
    }
}

/// A line for each class from 0 to 63.
fn sheet() -> Vec<u8> {
    let lines = (0..LINES).map(|class| LineSpec::Classes(class, class));
    SheetSpec::new(lines.collect::<Vec<_>>()).bytes()
}

/// las_plain, then each build that tests classes.
fn sides<'a>(testers: &'a [Tester], sheet: &'a [u8], class: u8) -> Vec<Side<'a>> {
    let plain = side(move || {
        black_box(las_plain::class_test(black_box(sheet), class)).ok();
    });
    let builds = testers.iter().map(|tester| {
        side(move || {
            black_box(tester.class_test(black_box(sheet), class));
        })
    });
    [plain].into_iter().chain(builds).collect()
}

/// A side that tests a class over and over.
fn side<'a>(test: impl Fn() + 'a) -> Side<'a> {
    Box::new(move |_| time(|| (0..TESTS).for_each(|_| test())))
}

/// Asserts that all sides give the same answer.
fn assert_same(testers: &[Tester], sheet: &[u8], class: u8) {
    let plain = las_plain::class_test(sheet, class).expect("the sheet passes");
    let answer = las_class_line {
        number: 0,
        kept: plain.kept.into(),
        lines: plain.lines,
    };
    for tester in testers {
        assert_eq!(tester.class_test(sheet, class), answer);
    }
}

#[cfg(test)]
mod tests {
    use super::*;

    #[test]
    fn the_first_line_answers_and_then_none_does() {
        let answers = CLASSES.map(|(_, class)| las_plain::class_test(&sheet(), class));
        let answers = answers.map(|answer| answer.expect("the sheet passes"));
        assert_eq!(answers.map(|answer| answer.kept), [true, false]);
        assert_eq!(answers.map(|answer| answer.lines), [1, 64]);
    }
}

//! Many lines, up to the 64 that a sheet may have.

use compare::compared::Compared;

use super::table::{CLASS, ask, held_by, held_by_none, sheet};

/// What stands, over and over, where no line holds the class.
const OTHERS: [&str; 8] = ["<", ">", "r", "b", "<r>", "rr>", "b<", "rb>"];

/// So many lines of which none holds the class.
fn others(pattern: &str, count: usize) -> String {
    pattern.chars().cycle().take(count).collect()
}

#[test]
fn each_of_64_lines_answers_in_its_turn() {
    let mut compared = Compared::new();
    for pattern in OTHERS {
        for line in 1..=64 {
            let before = others(pattern, line - 1);
            for behind in [others(pattern, 64 - line), "=".repeat(64 - line)] {
                let letters = format!("{before}={behind}");
                compared.case(&letters);
                let answer = ask(&mut compared, &sheet(&letters), CLASS);
                assert_eq!(answer, held_by(line), "{letters}");
            }
        }
    }
}

#[test]
fn all_lines_are_looked_at_where_none_holds_the_class() {
    let mut compared = Compared::new();
    for pattern in OTHERS {
        for count in 0..=64 {
            let letters = others(pattern, count);
            compared.case(&letters);
            let answer = ask(&mut compared, &sheet(&letters), CLASS);
            assert_eq!(answer, held_by_none(count), "{letters}");
        }
    }
}

#[test]
fn the_first_answers_where_all_lines_hold_the_class() {
    let mut compared = Compared::new();
    for count in 1..=64 {
        compared.case(format!("{count} lines"));
        let answer = ask(&mut compared, &sheet(&"=".repeat(count)), CLASS);
        assert_eq!(answer, held_by(1), "{count} lines");
    }
}

//! Where the line stands that answers, among a few others.

use compare::compared::Compared;

use super::table::{CLASS, LETTERS, ask, due, sheet};

/// A sheet's lines, whether one holds the class, and how many are looked at for it.
const WRITTEN: [(&str, u64, u64); 40] = [
    ("", 0, 0),
    ("=", 1, 1),
    ("<", 0, 1),
    (">", 0, 1),
    ("r", 0, 1),
    // The first, the last, one in the middle.
    ("=<", 1, 1),
    ("=<>r<", 1, 1),
    ("<=", 1, 2),
    ("<>r<=", 1, 5),
    ("<=>", 1, 2),
    ("<>=<>", 1, 3),
    // Two that hold the class, and more.
    ("==", 1, 1),
    ("=<=", 1, 1),
    ("<==", 1, 2),
    ("<=>=", 1, 2),
    (">r=r===", 1, 3),
    // Behind lines for records, before them and between them.
    ("r=", 1, 2),
    ("rrr=", 1, 4),
    ("r<r>=", 1, 5),
    ("=r", 1, 1),
    ("=rrr", 1, 1),
    ("r=r", 1, 2),
    ("rr=rr", 1, 3),
    ("r=r=r", 1, 2),
    // Behind boxes, before them and between them.
    ("b=", 1, 2),
    ("bbb=", 1, 4),
    ("=b", 1, 1),
    ("=bbb", 1, 1),
    ("b=b", 1, 2),
    ("br=rb", 1, 3),
    ("<b>b=", 1, 5),
    // None.
    ("b", 0, 1),
    ("bbbbb", 0, 5),
    ("r<b>r", 0, 5),
    ("<>", 0, 2),
    ("<<<", 0, 3),
    ("rr", 0, 2),
    ("rrrrr", 0, 5),
    ("r<r>r", 0, 5),
    ("<rr>", 0, 4),
];

#[test]
fn sheets_answer_as_it_is_written_here() {
    let mut compared = Compared::new();
    for (letters, kept, lines) in WRITTEN {
        compared.case(letters);
        let answer = ask(&mut compared, &sheet(letters), CLASS);
        assert_eq!((answer.number, answer.kept), (0, kept), "{letters}");
        assert_eq!(answer.lines, lines, "{letters}");
    }
}

/// All rows of so many letters.
fn rows(length: u32) -> impl Iterator<Item = String> {
    let letter = |row: usize, place| LETTERS[row / LETTERS.len().pow(place) % LETTERS.len()];
    let all = 0..LETTERS.len().pow(length);
    all.map(move |row| (0..length).map(|place| letter(row, place)).collect())
}

#[test]
fn every_sheet_of_up_to_six_lines_answers_by_the_first_that_holds_the_class() {
    let mut compared = Compared::new();
    // None holds it, one does, several do.
    let mut reached = [0; 3];
    for letters in (0..=6).flat_map(rows) {
        compared.case(&letters);
        let answer = ask(&mut compared, &sheet(&letters), CLASS);
        assert_eq!(answer, due(&letters), "{letters}");
        reached[letters.matches('=').count().min(2)] += 1;
    }
    assert_eq!(reached, [5461, 7737, 6333]);
}

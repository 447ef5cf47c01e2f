//! Sheets written in letters, the class test of them, and its answers.

use compare::answers::ClassLine;
use compare::compared::Compared;
use compare::spec::{BoxSpec, LineSpec};

/// The class that is asked about where a sheet is written in letters.
pub const CLASS: u8 = 6;

/// The letters of all lines.
pub const LETTERS: [char; 5] = ['=', '<', '>', 'r', 'b'];

/// The user ID on lines for records: its first bytes would be a range that holds every class, and lines for the class
/// stand in it.
const USER: [u8; 16] = *b"\x00\xFFKS\x01\x06\x06KS\x01\x06\x06\x00\xFFKS";

/// The values of boxes: their first bytes too would be a range that holds every class, and a line for the class would
/// begin behind them, or where a line for a record ends.
const BOX: &[u8; 24] = b"\x00\xFFKS\x01\x06\x06\x60KS\x01\x06KS\x01\x06\x06\0KS\x01\x06\x06\x60";

/// `=` is a line for the class; `<` ends just below it, `>` begins just above it, `r` is for a record, `b` is a box.
pub fn line(letter: char) -> LineSpec {
    match letter {
        '=' => LineSpec::Classes(CLASS, CLASS),
        '<' => LineSpec::Classes(0, CLASS - 1),
        '>' => LineSpec::Classes(CLASS + 1, 255),
        'r' => LineSpec::Record(USER, 7),
        'b' => LineSpec::Box(BoxSpec::read(BOX)),
        _ => panic!("no line has the letter {letter}"),
    }
}

/// The sheet with these lines.
pub fn sheet(letters: &str) -> Vec<u8> {
    letters
        .chars()
        .flat_map(|letter| line(letter).bytes())
        .collect()
}

/// The answer of a sheet of these lines.
pub fn due(letters: &str) -> ClassLine {
    match letters.find('=') {
        Some(before) => held_by(before + 1),
        None => held_by_none(letters.len()),
    }
}

/// The answer where this line, counted from 1, is the first that holds the class.
pub fn held_by(line: usize) -> ClassLine {
    ClassLine {
        number: 0,
        kept: 1,
        lines: line as u64,
    }
}

/// The answer where none of so many lines holds the class.
pub fn held_by_none(lines: usize) -> ClassLine {
    ClassLine {
        number: 0,
        kept: 0,
        lines: lines as u64,
    }
}

/// The answer of a sheet that does not pass.
pub fn refused(number: u64) -> ClassLine {
    ClassLine {
        number,
        kept: 0,
        lines: 0,
    }
}

/// Asks about a class. Whatever the sheet is, it is kept or refused as `class_kept` says, at most 64 lines are looked
/// at, and a refusal has zeros beside its number.
pub fn ask(compared: &mut Compared, sheet: &[u8], class: u8) -> ClassLine {
    let answer = compared.class_test(sheet, class);
    let kept = compared.class_kept(sheet, class);
    assert_eq!((answer.number, answer.kept), (kept.number, kept.kept));
    assert!(answer.lines <= 64, "{answer:?}");
    if answer.number != 0 {
        assert_eq!(answer, refused(answer.number));
    }
    answer
}

#[test]
fn the_letters_are_the_lines_that_are_written_here() {
    assert_eq!(sheet("="), [0x4B, 0x53, 1, 6, 6]);
    assert_eq!(sheet("<"), [0x4B, 0x53, 1, 0, 5]);
    assert_eq!(sheet(">"), [0x4B, 0x53, 1, 7, 255]);
    assert_eq!(sheet("r")[..5], [0x4B, 0x53, 2, 0, 255]);
    assert_eq!(sheet("r")[5..10], sheet("="));
    assert_eq!(sheet("b")[..5], [0x4B, 0x53, 3, 0, 255]);
    assert_eq!(sheet("b")[5..10], sheet("="));
    assert_eq!(sheet("b")[21..26], sheet("="));
}

#[test]
fn due_answers_are_those_that_are_written_here() {
    assert_eq!(due(""), held_by_none(0));
    assert_eq!(due("r<"), held_by_none(2));
    assert_eq!(due("r="), held_by(2));
    assert_eq!(due("=="), held_by(1));
}

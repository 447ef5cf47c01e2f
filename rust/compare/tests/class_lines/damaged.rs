//! Sheets of which one byte is another, or of which only the front is there.

use compare::answers::ClassLine;
use compare::compared::{Compared, Function};
use compare::damage::damage_sheet;
use compare::rng::{Rng, seeds};
use compare::spec::{BoxSpec, LineSpec, SheetSpec};

use super::table::{CLASS, ask, due, line, refused, sheet};

/// The lines of the sheets that are damaged.
const SHEETS: [&str; 9] = [
    "=", "r=", "=r", "b=", "=b", "<=>", "r<=>r=", "b<=>b=", "<r>rbb",
];

/// The answer with this byte at a place of one line; none where a line becomes one of the other kind, since all behind
/// it is then read as other lines.
fn due_with(letters: &str, index: usize, place: usize, byte: u8) -> Option<ClassLine> {
    let damaged = line(letters.as_bytes()[index].into());
    let mut bytes = damaged.bytes();
    if bytes[place] == byte {
        return Some(due(letters));
    }
    bytes[place] = byte;
    match (place, damaged) {
        (0 | 1, _) => Some(refused(20)),
        (2, _) => (!(1..=3).contains(&byte)).then_some(refused(21)),
        (3, LineSpec::Classes(_, high)) => Some(due_with_range(letters, index, byte, high)),
        (_, LineSpec::Classes(low, _)) => Some(due_with_range(letters, index, low, byte)),
        (_, LineSpec::Box(_)) if BoxSpec::read(&bytes[3..]).is_reversed() => Some(refused(23)),
        (_, LineSpec::Record(..) | LineSpec::Box(_)) => Some(due(letters)),
    }
}

/// The answer with this range on one line.
fn due_with_range(letters: &str, index: usize, low: u8, high: u8) -> ClassLine {
    if low > high {
        return refused(23);
    }
    let holds = low <= CLASS && CLASS <= high;
    let letter = if holds { "=" } else { "<" };
    due(&[&letters[..index], letter, &letters[index + 1..]].concat())
}

#[test]
fn every_byte_of_a_sheet_matters_as_it_is_written_here() {
    let mut compared = Compared::new();
    for letters in SHEETS {
        let whole = sheet(letters);
        for index in 0..letters.len() {
            let start = sheet(&letters[..index]).len();
            for place in start..sheet(&letters[..=index]).len() {
                for byte in 0..=255 {
                    let mut damaged = whole.clone();
                    damaged[place] = byte;
                    let case = format!("{letters}, {byte} at {place}");
                    compared.case(&case);
                    let answer = ask(&mut compared, &damaged, CLASS);
                    if let Some(due) = due_with(letters, index, place - start, byte) {
                        assert_eq!(answer, due, "{case}");
                    }
                }
            }
        }
    }
}

#[test]
fn every_front_of_a_sheet_answers_for_its_lines_or_is_cut() {
    let mut compared = Compared::new();
    for letters in SHEETS {
        let whole = sheet(letters);
        for length in 0..=whole.len() {
            let case = format!("{length} bytes of {letters}");
            compared.case(&case);
            let ends_at = |&lines: &usize| sheet(&letters[..lines]).len() == length;
            let lines = (0..=letters.len()).find(ends_at);
            let due = lines.map_or(refused(22), |lines| due(&letters[..lines]));
            let answer = ask(&mut compared, &whole[..length], CLASS);
            assert_eq!(answer, due, "{case}");
        }
    }
}

#[test]
fn damaged_random_sheets_answer_alike() {
    for seed in seeds() {
        let (mut rng, mut compared) = (Rng::new(seed), Compared::new());
        for round in 0..6000 {
            let mut sheet = SheetSpec::random(&mut rng).bytes();
            damage_sheet(&mut rng, &mut sheet);
            compared.case(format!("seed {seed}, sheet {round}"));
            let number = compared.check_sheet(&sheet);
            for class in [0, 2, 9, 255, rng.byte()] {
                let answer = ask(&mut compared, &sheet, class);
                assert_eq!(answer.number, number, "seed {seed}, sheet {round}");
            }
        }
        compared.assert_all_reached(&[Function::ClassTest]);
    }
}

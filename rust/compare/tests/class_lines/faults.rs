//! Sheets that do not pass: the whole sheet is checked before a line is looked at for the class.

use compare::compared::{Compared, Function};
use compare::sheet_ends::ENDS;

use super::table::{CLASS, ask, due, refused, sheet};

/// Lines of which one holds the class: a few, and as many as a sheet may have or nearly so.
fn fronts() -> Vec<String> {
    let few = [
        "=", "=r", "=b", "<=>", "r=r=", "b=b=", "rrr=", "rbb=", "<>=rr<",
    ];
    let mut fronts: Vec<String> = few.map(String::from).into();
    for others in [61, 62, 63] {
        fronts.push(format!("={}", "<".repeat(others)));
        fronts.push(format!("={}", "r".repeat(others)));
        fronts.push(format!("={}", "b".repeat(others)));
        fronts.push(format!("{}=", "r".repeat(others)));
        fronts.push(format!("{}=", "b".repeat(others)));
    }
    fronts
}

#[test]
fn a_fault_behind_the_line_that_answers_is_given_and_a_good_line_there_is_not_looked_at() {
    let mut compared = Compared::new();
    for front in fronts() {
        for (end, number) in ENDS {
            let full = front.len() == 64 && !end.is_empty();
            let case = format!("{front}, then {}", end.escape_ascii());
            compared.case(&case);
            let bytes = [sheet(&front).as_slice(), end].concat();
            let answer = ask(&mut compared, &bytes, CLASS);
            let expected = match if full { 24 } else { number } {
                0 => due(&front),
                number => refused(number),
            };
            assert_eq!(answer, expected, "{case}");
        }
    }
    compared.assert_all_reached(&[Function::ClassTest]);
}

/// Lines with a fault each, whatever follows them.
const FAULTS: [(&[u8], u64); 8] = [
    (b"KT\x01\x06\x06", 20),
    (b"KS\x04\x06\x06", 21),
    (b"KS\x00\x06\x06", 21),
    (b"KS\x01\x07\x06", 23),
    (b"KS\x01\xFF\x00", 23),
    // Boxes with a low value above the high one, on each axis.
    (
        b"KS\x03\x07\0\0\0\x06\0\0\0\x06\0\0\0\x06\0\0\0\x06\0\0\0\x06\0\0\0",
        23,
    ),
    (
        b"KS\x03\x06\0\0\0\x06\0\0\0\x07\0\0\0\x06\0\0\0\x06\0\0\0\x06\0\0\0",
        23,
    ),
    (
        b"KS\x03\x06\0\0\0\x06\0\0\0\x06\0\0\0\x06\0\0\0\x07\0\0\0\x06\0\0\0",
        23,
    ),
];

#[test]
fn a_fault_before_the_line_that_would_answer_is_given() {
    let mut compared = Compared::new();
    for (fault, number) in FAULTS {
        for (before, behind) in [
            ("", "="),
            ("<", "="),
            ("r", "=r"),
            ("b", "=b"),
            ("<r>", "<="),
        ] {
            let case = format!("{before}, {}, {behind}", fault.escape_ascii());
            compared.case(&case);
            let bytes = [&sheet(before), fault, &sheet(behind)].concat();
            assert_eq!(ask(&mut compared, &bytes, CLASS), refused(number), "{case}");
        }
    }
}

#[test]
fn a_fault_is_given_where_no_line_would_hold_the_class() {
    let mut compared = Compared::new();
    for front in ["", "<", "r", "b", "r>r", "b>b"] {
        for (end, number) in ENDS.into_iter().filter(|(_, number)| *number != 0) {
            let case = format!("{front}, then {}", end.escape_ascii());
            compared.case(&case);
            let bytes = [sheet(front).as_slice(), end].concat();
            assert_eq!(ask(&mut compared, &bytes, CLASS), refused(number), "{case}");
        }
    }
}

#[test]
fn of_several_faults_behind_the_line_that_answers_the_first_is_given() {
    let mut compared = Compared::new();
    for (first, number) in FAULTS {
        for (second, _) in ENDS {
            for between in ["", "=", "r<", "b="] {
                let bytes = [&sheet("r="), first, &sheet(between), second].concat();
                compared.case(format!("{number}, then {}", second.escape_ascii()));
                assert_eq!(ask(&mut compared, &bytes, CLASS), refused(number));
            }
        }
    }
}

#[test]
fn a_65th_line_is_the_fault_unless_an_earlier_line_has_one() {
    let mut compared = Compared::new();
    for (fault, number) in FAULTS {
        for (others, due) in [(62, number), (63, 24), (64, 24)] {
            let case = format!("{others} lines, {}", fault.escape_ascii());
            compared.case(&case);
            for other in ["r", "b"] {
                let front = sheet(&format!("={}", other.repeat(others)));
                let bytes = [&front, fault, &sheet("==")].concat();
                assert_eq!(ask(&mut compared, &bytes, CLASS), refused(due), "{case}");
            }
        }
    }
}

#[test]
fn every_class_is_refused_alike() {
    let mut compared = Compared::new();
    for (end, number) in ENDS.into_iter().filter(|(_, number)| *number != 0) {
        let bytes = [&sheet("<r=>"), end].concat();
        for class in 0..=255 {
            compared.case(format!("{}, class {class}", end.escape_ascii()));
            assert_eq!(ask(&mut compared, &bytes, class), refused(number));
        }
    }
}

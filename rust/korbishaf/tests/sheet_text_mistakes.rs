//! The place and the words of each mistake in the text of a sheet.

use korbishaf::{Sheet, TextError, class_number};

/// Asserts the place and the words of a text's first mistake.
fn mistaken(text: impl AsRef<[u8]>, line: usize, column: usize, words: &str) {
    let text = text.as_ref();
    let mistake = Sheet::from_text(text).unwrap_err();
    let place = (mistake.line(), mistake.column());
    let shown = text[..text.len().min(100)].escape_ascii();
    assert_eq!((place, mistake.words()), ((line, column), words), "{shown}");
    let whole = format!("line {line}, column {column}: {words}");
    assert_eq!(mistake.to_string(), whole);
    assert_eq!(format!("{mistake:?}"), whole);
}

/// The same for many texts of one line, with the words that all of them share before their own.
fn all_mistaken(shared: &str, texts: &[(&str, usize, &str)]) {
    for (text, column, words) in texts {
        mistaken(text, 1, *column, &format!("{shared}{words}"));
    }
}

#[test]
fn keywords() {
    let shared = "expected 'class', 'record' or 'box', found ";
    all_mistaken(
        shared,
        &[
            ("clas 2", 1, "'clas'; did you mean 'class'?"),
            ("  Class 2", 3, "'Class'; did you mean 'class'?"),
            ("RECORDS a 7", 1, "'RECORDS'; did you mean 'record'?"),
            ("\"class\" 2", 1, r#"'"class"'; did you mean 'class'?"#),
            ("Box X 0..1", 1, "'Box'; did you mean 'box'?"),
            ("boxes X 0..1", 1, "'boxes'; did you mean 'box'?"),
            ("box: X 0..1", 1, "'box:'; did you mean 'box'?"),
            ("keep 2", 1, "'keep'"),
            ("2", 1, "'2'"),
            ("\0", 1, r"'\x00'"),
            (" \u{feff}class 2", 2, r"'\xEF\xBB\xBFclass'"),
        ],
    );
    let long = format!("{shared}'{}..'", "x".repeat(32));
    mistaken("x".repeat(1_000_000), 1, 1, &long);
    mistaken(b"\xFF", 1, 1, &format!("{shared}'\\xFF'"));
}

/// What every mistake in a class says first.
const A_CLASS: &str = "expected a class from 0 to 255, 'lowest-highest' or a class name, found ";

#[test]
fn classes() {
    all_mistaken(
        A_CLASS,
        &[
            ("class", 6, "nothing"),
            ("class  # 2", 8, "nothing"),
            ("class 256", 7, "'256'"),
            ("class 65536", 7, "'65536'"),
            ("class 99999999999999999999", 7, "'99999999999999999999'"),
            ("class -1", 7, "'-1'"),
            ("class +1", 7, "'+1'"),
            ("class 0x2", 7, "'0x2'"),
            ("class 2,3", 7, "'2,3'"),
        ],
    );
}

#[test]
fn ranges() {
    all_mistaken(
        A_CLASS,
        &[
            ("class 300-4", 7, "'300'"),
            (
                "class ground-building",
                7,
                "'ground-building' (a range has numbers, as in '3-5')",
            ),
            (
                "class low-point-9",
                7,
                "'low-point-9' (a range has numbers, as in '3-5')",
            ),
        ],
    );
    all_mistaken(
        "expected the highest class behind the '-', from 0 to 255, found ",
        &[
            ("class 3-", 9, "nothing"),
            ("class 3-256", 9, "'256'"),
            ("class 3-4-5", 9, "'4-5'"),
            (
                "class 2-ground",
                9,
                "'ground' (a range has numbers, as in '3-5')",
            ),
        ],
    );
    all_mistaken(
        "expected the lowest class before the highest, ",
        &[
            ("class 5-3", 7, "'3-5', found '5-3'"),
            ("class 255-0", 7, "'0-255', found '255-0'"),
        ],
    );
    all_mistaken(
        "expected the end of the line or a comment, found ",
        &[
            ("class 3 - 5", 9, "'-' (a range has no blanks, as in '3-5')"),
            ("class 3 4", 9, "'4' (a range has no blanks, as in '3-5')"),
        ],
    );
}

/// A word that is asked for by itself is one class, with nothing around it.
#[test]
fn a_class_by_itself() {
    for (word, words) in [
        ("", "nothing"),
        ("256", "'256'"),
        ("65536", "'65536'"),
        ("-1", "'-1'"),
        ("+1", "'+1'"),
        ("2 ", "'2 '"),
        ("2#", "'2#'"),
        ("3-5", "'3-5'"),
        ("class", "'class'"),
        ("gruond", "'gruond'; did you mean 'ground'?"),
        ("\u{fc}", r"'\xC3\xBC'"),
    ] {
        let mistake = class_number(word).unwrap_err();
        let wanted = format!("expected a class from 0 to 255 or a class name, found {words}");
        assert_eq!(mistake.words(), wanted);
        assert_eq!((mistake.line(), mistake.column()), (1, 1));
    }
}

#[test]
fn class_names() {
    all_mistaken(
        A_CLASS,
        &[
            ("class\tgruond", 7, "'gruond'; did you mean 'ground'?"),
            ("class Bilding", 7, "'Bilding'; did you mean 'building'?"),
            (
                "class lowvegetation",
                7,
                "'lowvegetation'; did you mean 'low-vegetation'?",
            ),
            (
                "class LOW__POINT",
                7,
                "'LOW__POINT'; did you mean 'low-point'?",
            ),
            (
                "class \"ground\"",
                7,
                r#"'"ground"'; did you mean 'ground'?"#,
            ),
            ("class noise", 7, "'noise'"),
        ],
    );
}

#[test]
fn records() {
    all_mistaken(
        "expected a user ID, found ",
        &[("record", 7, "nothing"), ("record #yard 7", 8, "nothing")],
    );
    all_mistaken(
        "expected a record ID from 0 to 65535 behind the user ID, found ",
        &[
            ("record yard", 12, "nothing"),
            ("record \"yard\" # 7", 15, "nothing"),
            ("record yard 65536", 13, "'65536'"),
            ("record yard -1", 13, "'-1'"),
            (
                "record my survey 7",
                11,
                "'survey' (a user ID with a blank stands in double quotes)",
            ),
        ],
    );
    all_mistaken(
        "expected the end of the line or a comment, found ",
        &[(
            "record yard 7 8",
            15,
            "'8' (a user ID with a blank stands in double quotes)",
        )],
    );
    all_mistaken(
        "expected a user ID of at most 16 bytes, found one of ",
        &[
            ("record 0123456789abcdefg 7", 8, "17"),
            (r#"record "0123456789abcde\x41\"" 7"#, 8, "17"),
            (r#"record "0123456789abcdefg    " 7"#, 8, "17"),
        ],
    );
}

#[test]
fn bare_user_ids() {
    all_mistaken(
        "expected a user ID in double quotes, as in \"my survey\", since it has ",
        &[
            ("record ya\"rd 7", 10, r#"'"'"#),
            ("record ya\\rd 7", 10, r"'\\'"),
            ("record M\u{fc}ller 7", 9, r"'\xC3'"),
            ("record ya\x07rd 7", 10, r"'\x07'"),
            ("record yard\r 7", 12, r"'\x0D'"),
        ],
    );
}

#[test]
fn quotes() {
    let open = "expected a double quote at the user ID's end, found nothing";
    all_mistaken(
        open,
        &[
            ("record \"yard 7", 8, ""),
            ("record \"yard\n\" 7", 8, ""),
            ("record \"", 8, ""),
        ],
    );
    all_mistaken(
        "expected this byte as an escape, ",
        &[
            ("record \"M\u{fc}\" 7", 10, r"'\xC3'"),
            ("record \"a\tb\" 7", 10, r"'\x09'"),
        ],
    );
    all_mistaken(
        "expected a blank behind the quote, found ",
        &[
            ("record \"yard\"7", 14, "'7'"),
            ("record \"a\"\"b\" 7", 11, r#"'"'"#),
        ],
    );
}

#[test]
fn escapes() {
    all_mistaken(
        r#"expected \", \\ or \x and two hexadecimal digits behind a backslash"#,
        &[
            ("record \"a\\", 10, ""),
            ("record \"a\\n\" 7", 10, ""),
            ("record \"a\\X41\" 7", 10, ""),
            ("record \"a\\xG0\" 7", 10, ""),
            ("record \"a\\x4\" 7", 10, ""),
            ("record \"a\\x4", 10, ""),
        ],
    );
    all_mistaken(
        "expected no zero byte, since a user ID ends before its first",
        &[
            ("record \"a\\x00\" 7", 10, ""),
            ("record \"a  \\x00\" 7", 12, ""),
        ],
    );
}

#[test]
fn more_than_64_lines() {
    let full = "# a line\n\nclass 2\n".repeat(64);
    let words = "expected at most 64 lines, found another";
    mistaken(format!("{full}class 2"), 193, 1, words);
    // The library's check says 24 before it looks at the line itself, and so does this.
    mistaken(format!("{full}  clas 2"), 193, 3, words);
}

#[test]
fn the_first_mistake_is_given_with_its_line() {
    let words = "expected the lowest class before the highest, '3-5', found '5-3'";
    mistaken("class 5-3\nclas 2", 1, 7, words);
    mistaken("class 2\r\n\n \t class 5-3\r\nclas 2", 3, 10, words);
}

#[test]
fn a_mistake_is_an_error() {
    let mistake: TextError = Sheet::from_text("keep").unwrap_err();
    let boxed: Box<dyn std::error::Error + Send + Sync> = Box::new(mistake.clone());
    assert_eq!(boxed.to_string(), mistake.to_string());
}

//! The text form of a sheet: what is read and what is written.

use korbishaf::{Line, Sheet, class_number};

/// The lines of a good text.
fn lines(text: impl AsRef<[u8]>) -> Vec<Line> {
    Sheet::from_text(text).unwrap().lines().collect()
}

fn record(user_id: impl AsRef<[u8]>, record_id: u16) -> Line {
    Line::record(user_id, record_id).unwrap()
}

#[test]
fn classes_and_records() {
    assert_eq!(
        lines("class 2\nclass 3-5\nclass 0-255\nrecord LASF_Projection 34735\n"),
        [
            Line::class(2),
            Line::classes(3, 5),
            Line::classes(0, 255),
            record("LASF_Projection", 34735)
        ]
    );
    assert_eq!(
        lines("record a 0\nrecord a 65535"),
        [record("a", 0), record("a", 65535)]
    );
    assert_eq!(
        lines("class 007\nrecord a 00007"),
        [Line::class(7), record("a", 7)]
    );
}

#[test]
fn blanks_comments_and_line_ends() {
    let wanted = [Line::class(2), record("yard", 7)];
    for text in [
        "class 2\nrecord yard 7",
        "\n\n  class   2  \n\t\n\trecord\tyard\t7\t\n\n",
        "# a sheet\nclass 2 # ground\nrecord yard 7# the yard\n#",
        "class 2\r\nrecord yard 7\r\n",
    ] {
        assert_eq!(lines(text), wanted, "{text:?}");
    }
    assert_eq!(
        lines("class 2 # \u{fc} \"\nclass 3"),
        [Line::class(2), Line::class(3)]
    );
    assert_eq!(lines(b"class 2 # \xFF\x00\n"), [Line::class(2)]);
    assert_eq!(lines("# class 2"), []);
    assert_eq!("class 2".parse(), Sheet::from_text("class 2"));
}

#[test]
fn every_class_name() {
    for (class, name) in [
        (0, "created-never-classified"),
        (1, "unclassified"),
        (2, "ground"),
        (3, "low-vegetation"),
        (4, "medium-vegetation"),
        (5, "high-vegetation"),
        (6, "building"),
        (7, "low-point"),
        (8, "model-key-point"),
        (9, "water"),
        (12, "overlap"),
    ] {
        for name in [
            name.to_string(),
            name.to_uppercase(),
            name.replace('-', "_"),
            name[..1].to_uppercase() + &name[1..],
        ] {
            let text = format!("class {name}");
            assert_eq!(lines(&text), [Line::class(class)], "{text}");
            assert_eq!(class_number(name), Ok(class));
        }
        let written = Sheet::from_text(format!("class {name} # by name")).unwrap();
        assert_eq!(written.to_text(), format!("class {class}\n"));
    }
}

#[test]
fn every_class_by_its_number() {
    for class in 0..=255 {
        assert_eq!(class_number(class.to_string()), Ok(class));
        assert_eq!(class_number(format!("00{class}")), Ok(class));
    }
}

#[test]
fn quoted_user_ids() {
    for (quoted, user_id) in [
        (r#""yard""#, &b"yard"[..]),
        (r#""""#, b""),
        (r#""my survey""#, b"my survey"),
        (r#""a#b""#, b"a#b"),
        (r#""\"\\""#, b"\"\\"),
        (r#""M\xFCller\x0a\x7F""#, b"M\xFCller\n\x7F"),
        (r#""\x41\x4a\x4B""#, b"AJK"),
        (r#""0123456789abcde\xFF""#, b"0123456789abcde\xFF"),
        (r#""0123456789abcdef     ""#, b"0123456789abcdef"),
        (r#"" ya rd    ""#, b" ya rd"),
        (r#""yard\x20""#, b"yard"),
        (r#""   ""#, b""),
    ] {
        let text = format!("record {quoted} 7");
        assert_eq!(lines(&text), [record(user_id, 7)], "{text}");
    }
}

#[test]
fn user_ids_are_quoted_where_they_cannot_stand_bare() {
    for byte in 1..=255u8 {
        let user_id = [byte, b'a'];
        let line = record(user_id, 7);
        let text = line.to_string();
        let bare = (b'!'..=b'~').contains(&byte) && !b"\"#\\".contains(&byte);
        assert_eq!(text.contains('"'), !bare, "{text}");
        assert!(
            text.bytes().all(|byte| (b' '..=b'~').contains(&byte)),
            "{text}"
        );
        assert_eq!(lines(text), [line]);
    }
    for (user_id, written) in [
        (&b""[..], r#""""#),
        (b" ", r#""""#),
        (b" a ", r#"" a""#),
        (b"yard    ", "yard"),
        (b"a\"b", r#""a\"b""#),
        (b"a\\b", r#""a\\b""#),
        (b"a#b", r#""a#b""#),
        (b"\t\xE9", r#""\x09\xE9""#),
        (b"class", "class"),
        (b"'34735'", "'34735'"),
    ] {
        assert_eq!(
            record(user_id, 7).to_string(),
            format!("record {written} 7")
        );
    }
}

#[test]
fn at_most_64_lines() {
    let full = "# a line\n\nclass 2\n".repeat(64);
    assert_eq!(lines(format!("{full}\n# no line\n")).len(), 64);
}

/// Some editors put a byte order mark before a text.
#[test]
fn a_byte_order_mark_is_no_part_of_a_text() {
    let sheet = Sheet::from_text("\u{feff}class 2\nrecord yard 7").unwrap();
    assert_eq!(sheet.to_text(), "class 2\nrecord yard 7\n");
    assert_eq!(Sheet::from_text("\u{feff}"), Ok(Sheet::new()));
    assert!(Sheet::from_text("class 2\n\u{feff}class 3").is_err());
}

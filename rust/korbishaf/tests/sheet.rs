//! Sheets of bytes and of lines, and which form is recognised.

use korbishaf::{ErrorKind, Line, Sheet, SheetError, UserId};

/// Two lines: classes 3 to 5, and the record 7 of `yard`, with other bytes behind the name.
const TWO_LINES: &[u8; 26] = b"KS\x01\x03\x05KS\x02yard\0other junk\0\x07\0";

fn record(user_id: &str, record_id: u16) -> Line {
    Line::record(user_id, record_id).unwrap()
}

#[test]
fn the_empty_sheet() {
    assert_eq!(Sheet::new(), Sheet::default());
    assert_eq!(Sheet::new().as_bytes(), []);
    assert_eq!(Sheet::new().lines().next(), None);
    assert_eq!(Sheet::new().to_text(), "");
    assert_eq!(Sheet::from_bytes([]), Ok(Sheet::new()));
    assert_eq!(Sheet::from_lines([]), Ok(Sheet::new()));
    assert_eq!(Sheet::from_text(""), Ok(Sheet::new()));
    assert_eq!(Sheet::read(""), Ok(Sheet::new()));
}

#[test]
fn bytes_stay_as_they_are() {
    let sheet = Sheet::from_bytes(*TWO_LINES).unwrap();
    assert_eq!(sheet.as_bytes(), TWO_LINES);
    assert_eq!(Sheet::try_from(TWO_LINES.to_vec()), Ok(sheet));
}

#[test]
fn bytes_that_do_not_pass() {
    for (bytes, number) in [
        (&b"KT\x01"[..], 20),
        (b"KS\x00", 21),
        (b"KS\x04", 21),
        (b"KS", 22),
        (b"K", 22),
        (&TWO_LINES[..25], 22),
        (b"KS\x01\x03\x02", 23),
        (&b"KS\x01\x02\x02".repeat(65), 24),
    ] {
        let refused = Sheet::from_bytes(bytes).unwrap_err();
        assert_eq!(
            (refused.number(), refused.kind()),
            (number, ErrorKind::Sheet)
        );
    }
}

#[test]
fn lines_of_bytes() {
    let sheet = Sheet::from_bytes(*TWO_LINES).unwrap();
    assert!(sheet.lines().eq([Line::classes(3, 5), record("yard", 7)]));
    assert_eq!(sheet.to_text(), "class 3-5\nrecord yard 7\n");
    assert_eq!(sheet.to_string(), sheet.to_text());
}

#[test]
fn bytes_of_lines() {
    let lines = [Line::class(2), record("LASF_Projection", 34735)];
    let sheet = Sheet::from_lines(lines).unwrap();
    assert_eq!(
        sheet.as_bytes(),
        b"KS\x01\x02\x02KS\x02LASF_Projection\0\xAF\x87"
    );
    assert!(sheet.lines().eq(lines));
}

#[test]
fn lines_that_do_not_pass() {
    let refused = Sheet::from_lines([Line::class(1), Line::classes(5, 3)]).unwrap_err();
    assert_eq!((refused.number(), refused.kind()), (23, ErrorKind::Sheet));
    let lines = || std::iter::repeat(Line::class(1));
    assert_eq!(
        Sheet::from_lines(lines().take(64)).unwrap().lines().count(),
        64
    );
    for refused in [
        Sheet::from_lines(lines().take(65)),
        Sheet::from_lines(lines()),
    ] {
        assert_eq!(refused.unwrap_err().number(), 24);
    }
}

#[test]
fn user_ids() {
    assert_eq!(UserId::new("").unwrap().as_bytes(), b"");
    assert_eq!(UserId::new("").unwrap(), UserId::default());
    assert_eq!(UserId::new("yard").unwrap().as_bytes(), b"yard");
    assert_eq!(UserId::new("yard\0junk"), UserId::new("yard"));
    let longest = "0123456789abcdef";
    assert_eq!(UserId::new(longest).unwrap().as_bytes(), longest.as_bytes());
    assert_eq!(UserId::new("0123456789abcdef\0g"), UserId::new(longest));
    let long = UserId::new("0123456789abcdefg").unwrap_err();
    assert_eq!(long.length(), 17);
    let words = "expected a user ID of at most 16 bytes, found one of 17";
    assert_eq!(
        (long.to_string(), format!("{long:?}")),
        (words.into(), words.into())
    );
    assert_eq!(Line::record("0123456789abcdefg", 7), Err(long));
    assert_eq!(
        format!("{:?}", UserId::new("my own").unwrap()),
        "UserId(\"my own\")"
    );
}

#[test]
fn spaces_at_the_end_of_a_user_id_do_not_count() {
    assert_eq!(UserId::new("yard ").unwrap().as_bytes(), b"yard");
    assert_eq!(UserId::new("yard  \0 x"), UserId::new("yard"));
    assert_eq!(UserId::new(" ya rd "), UserId::new(" ya rd"));
    assert_ne!(UserId::new(" yard"), UserId::new("yard"));
    assert_eq!(UserId::new("    "), Ok(UserId::default()));
    assert_eq!(UserId::new("yard\t").unwrap().as_bytes(), b"yard\t");
    let longest = "0123456789abcdef";
    assert_eq!(UserId::new(format!("{longest}     ")), UserId::new(longest));
    let length = |user_id: String| UserId::new(user_id).unwrap_err().length();
    assert_eq!(length(format!("{longest}g     ")), 17);
    assert_eq!(length(format!("{longest} g")), 18);
}

/// A sheet's bytes stay as they are, and its lines have the names that count.
#[test]
fn lines_of_bytes_with_padded_names() {
    let bytes = b"KS\x02yard            \x07\0KS\x02                \x08\0";
    let sheet = Sheet::from_bytes(*bytes).unwrap();
    assert_eq!(sheet.as_bytes(), bytes);
    assert!(sheet.lines().eq([record("yard", 7), record("", 8)]));
    assert_eq!(sheet.to_text(), "record yard 7\nrecord \"\" 8\n");
    let again = Sheet::from_lines(sheet.lines()).unwrap();
    let zeros = bytes.map(|byte| if byte == b' ' { 0 } else { byte });
    assert_eq!(again.as_bytes(), zeros);
}

#[test]
fn the_form_is_recognised() {
    assert_eq!(
        Sheet::read(TWO_LINES),
        Ok(Sheet::from_bytes(*TWO_LINES).unwrap())
    );
    assert_eq!(
        Sheet::read("class 2"),
        Ok(Sheet::from_lines([Line::class(2)]).unwrap())
    );
    assert_eq!(Sheet::read("\n# nothing\n"), Ok(Sheet::new()));
    for (bytes, number) in [("KS", 22), ("KS\x01\x03\x02", 23), ("KS class 2", 21)] {
        let refused = Sheet::read(bytes).unwrap_err();
        assert!(matches!(refused, SheetError::Bytes(refused) if refused.number() == number));
    }
    for text in ["K", "S", "KT", "ks", " KS\x01\x02\x02"] {
        let refused = Sheet::read(text).unwrap_err();
        assert!(matches!(refused, SheetError::Text(_)), "{text}");
    }
}

#[test]
fn what_was_not_read_says_why_in_words() {
    for (bytes, words) in [
        ("KS", "refused 22: a line of the sheet is cut short"),
        (
            "clas 2",
            "line 1, column 1: expected 'class', 'record' or 'box', found 'clas'; did you mean 'class'?",
        ),
    ] {
        let refused = Sheet::read(bytes).unwrap_err();
        assert_eq!(refused.to_string(), words);
        assert_eq!(format!("{refused:?}"), words);
        let boxed: Box<dyn std::error::Error + Send + Sync> = refused.into();
        assert_eq!(boxed.to_string(), words);
    }
}

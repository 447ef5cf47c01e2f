//! Keep sheets, as bytes or as text.

use crate::failure::Failure;
use crate::input::Opened;
use crate::progress::Progress;
use crate::refusal;
use korbishaf::{Sheet, SheetError};

/// What some editors put before a text in UTF-8, and a sheet's text may begin with.
const BYTE_ORDER_MARK: &[u8] = b"\xEF\xBB\xBF";

/// A keep sheet that was read. A text is turned into bytes; bytes are as they were, and not checked yet.
#[derive(Debug)]
pub struct KeepSheet {
    /// The name of its file, as it may be shown.
    pub name: String,
    /// Its bytes.
    pub bytes: Vec<u8>,
    /// The numbers of its lines in the text that it was, from 1; none where it was bytes.
    text_lines: Option<Vec<usize>>,
}

impl KeepSheet {
    /// The sheet of these bytes, as they are.
    pub fn of_bytes(name: &str, bytes: Vec<u8>) -> Self {
        KeepSheet {
            name: name.into(),
            bytes,
            text_lines: None,
        }
    }

    /// Reads a sheet. A mistake in a text is refused here; bytes that do not pass are not, since a release looks at the
    /// file before them.
    pub fn read(opened: Opened) -> Result<Self, Failure> {
        let name = opened.name.clone();
        let bytes = opened.read(&Progress::none())?;
        if bytes.starts_with(b"LASF") {
            let words = format!("{name}: is a LAS file and no keep sheet");
            return Err(Failure::Refused(words));
        }
        match Sheet::read(&bytes) {
            // a text is never the bytes of its own sheet
            Ok(sheet) if sheet.as_bytes() != bytes => Ok(KeepSheet {
                text_lines: Some(text_lines(&bytes)),
                ..KeepSheet::of_bytes(&name, sheet.as_bytes().to_vec())
            }),
            Ok(_) | Err(SheetError::Bytes(_)) => Ok(KeepSheet::of_bytes(&name, bytes)),
            Err(SheetError::Text(mistake)) => {
                let (line, column) = (mistake.line(), mistake.column());
                Err(Failure::Refused(format!(
                    "{name}:{line}:{column}: {}",
                    mistake.words()
                )))
            }
            Err(other) => Err(Failure::Refused(format!("{name}: {other}"))),
        }
    }

    /// Where the line with that index is: its number in the text, or else the one that it has in the bytes, from 1.
    pub fn line_number(&self, index: usize) -> usize {
        let lines = self.text_lines.as_ref();
        let number = lines.and_then(|lines| lines.get(index));
        number.copied().unwrap_or(index + 1)
    }

    /// The same in words, as in `sheet.txt:5` or `line 3 of sheet.bin`.
    pub fn place(&self, index: usize) -> String {
        let (name, number) = (&self.name, self.line_number(index));
        match self.text_lines {
            Some(_) => format!("{name}:{number}"),
            None => format!("line {number} of {name}"),
        }
    }

    /// The sheet, if it passes the library's check.
    pub fn checked(&self) -> Result<Sheet, Failure> {
        Sheet::from_bytes(&*self.bytes).map_err(|refused| {
            Failure::Refused(refusal::of_sheet(&self.name, &self.bytes, &refused))
        })
    }
}

/// The numbers of a text's lines that are neither blank nor a comment, from 1: each is a line of the sheet.
fn text_lines(text: &[u8]) -> Vec<usize> {
    let text = text.strip_prefix(BYTE_ORDER_MARK).unwrap_or(text);
    let lines = (1..).zip(text.split(|&byte| byte == b'\n'));
    let filled = lines.filter(|(_, line)| {
        let line = line.strip_suffix(b"\r").unwrap_or(line);
        let first = line.iter().find(|byte| !matches!(byte, b' ' | b'\t'));
        first.is_some_and(|&byte| byte != b'#')
    });
    filled.map(|(number, _)| number).collect()
}

#[cfg(test)]
mod tests {
    use super::*;
    use compare::rng::{Rng, seeds};

    /// Lines of texts. Some are good only at times: what ends with `\r` only once, what begins with `\r` never.
    const LINES: [&str; 17] = [
        "class 2",
        "box X 0..5 # comment",
        " \tclass ground # comment",
        "record yard 7",
        "record \"#\" 7#",
        "class 3-5\r",
        "",
        " ",
        "\t ",
        "\r",
        " \r",
        "#",
        "# class 2",
        "  ## \r",
        "\t#\"",
        "\r\r",
        "\x0B# no blank",
    ];

    #[test]
    fn every_line_of_a_sheet_has_its_number_in_the_text() {
        let mut good = 0;
        for seed in seeds() {
            let mut rng = Rng::new(seed);
            for _ in 0..5000 {
                let lines: Vec<&str> = (0..rng.below(9)).map(|_| rng.pick(&LINES)).collect();
                let mark = rng.pick(&["", "\u{feff}"]);
                let text = format!("{mark}{}", lines.join(rng.pick(&["\n", "\r\n"])));
                let numbers = text_lines(text.as_bytes());
                let Ok(sheet) = Sheet::from_text(&text) else {
                    continue;
                };
                assert_eq!(numbers.len(), sheet.lines().count(), "{text:?}");
                for (number, line) in numbers.into_iter().zip(sheet.lines()) {
                    let alone = Sheet::from_text(lines[number - 1]).unwrap();
                    assert!(alone.lines().eq([line]), "{text:?}");
                }
                good += 1;
            }
        }
        assert!(good > 2000, "{good}");
    }

    #[test]
    fn places_of_texts_and_of_bytes_are_told_apart() {
        let bytes = KeepSheet::of_bytes("s.bin", Vec::new());
        let text = KeepSheet {
            text_lines: Some(vec![2, 5]),
            ..KeepSheet::of_bytes("s.txt", Vec::new())
        };
        assert_eq!(bytes.place(1), "line 2 of s.bin");
        assert_eq!(text.place(1), "s.txt:5");
        assert_eq!((bytes.line_number(1), text.line_number(1)), (2, 5));
    }
}

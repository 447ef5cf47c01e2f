//! A line of a text, word by word.

use super::error::TextError;

/// A line of a text, and how much of it is read.
pub(super) struct Cursor<'a> {
    line: usize,
    bytes: &'a [u8],
    at: usize,
}

/// A part of a line: its place, from 0, and its bytes. A word that is not there has none.
#[derive(Clone, Copy)]
pub(super) struct Word<'a> {
    pub(super) at: usize,
    pub(super) bytes: &'a [u8],
}

impl<'a> Cursor<'a> {
    /// The start of the line with that number, from 1.
    pub(super) fn new(line: usize, bytes: &'a [u8]) -> Self {
        Cursor { line, bytes, at: 0 }
    }

    /// What is not read yet.
    pub(super) fn rest(&self) -> &'a [u8] {
        &self.bytes[self.at..]
    }

    /// Goes on by so many bytes, and not beyond the end. Returns the place.
    pub(super) fn advance(&mut self, length: usize) -> usize {
        self.at = (self.at + length).min(self.bytes.len());
        self.at
    }

    /// Goes on to what is no space and no tab. Returns the place.
    pub(super) fn skip_blanks(&mut self) -> usize {
        let blanks = self.rest().iter().take_while(|byte| is_blank(**byte));
        self.advance(blanks.count())
    }

    /// The next word: up to a blank, a comment or the end.
    pub(super) fn word(&mut self) -> Word<'a> {
        let at = self.skip_blanks();
        let rest = self.rest();
        let length = rest.iter().take_while(|byte| !ends_word(**byte)).count();
        self.advance(length);
        Word {
            at,
            bytes: &rest[..length],
        }
    }

    /// Whether a word may begin or the line ends here.
    pub(super) fn is_between_words(&self) -> bool {
        self.rest().first().is_none_or(|byte| ends_word(*byte))
    }

    /// The place that is reached, from 0.
    pub(super) fn at(&self) -> usize {
        self.at
    }

    /// A mistake at a place of this line.
    pub(super) fn error(&self, at: usize, words: String) -> TextError {
        TextError::new(self.line, at + 1, words)
    }
}

impl<'a> Word<'a> {
    /// The parts before and behind the first such separator; the whole and none where there is none.
    pub(super) fn split_at(self, separator: &[u8]) -> (Word<'a>, Option<Word<'a>>) {
        let mut parts = self.bytes.windows(separator.len());
        match parts.position(|part| part == separator) {
            None => (self, None),
            Some(length) => {
                let behind = length + separator.len();
                let first = Word {
                    at: self.at,
                    bytes: &self.bytes[..length],
                };
                let last = Word {
                    at: self.at + behind,
                    bytes: &self.bytes[behind..],
                };
                (first, Some(last))
            }
        }
    }
}

fn is_blank(byte: u8) -> bool {
    matches!(byte, b' ' | b'\t')
}

fn ends_word(byte: u8) -> bool {
    is_blank(byte) || byte == b'#'
}

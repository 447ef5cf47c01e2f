//! Reads a source's text token by token: words, strings and single signs, without its comments.

/// A word, a string with its quotes, or one sign, and the place of its first byte.
#[derive(Clone, Copy, Debug, PartialEq)]
pub struct Token<'a> {
    pub text: &'a str,
    pub at: usize,
}

impl Token<'_> {
    /// The place just past it.
    pub fn end(&self) -> usize {
        self.at + self.text.len()
    }

    /// Whether it may name a function or a module.
    pub fn is_name(&self) -> bool {
        self.text
            .starts_with(|c: char| c.is_ascii_alphabetic() || c == '_')
    }

    /// Whether it is a name or a number.
    pub fn is_word(&self) -> bool {
        self.text.starts_with(in_word)
    }
}

/// Whether a character may stand in a word.
pub fn in_word(c: char) -> bool {
    c.is_alphanumeric() || c == '_'
}

/// The length of the comment that a text begins with, if it does.
fn comment_length(text: &str) -> Option<usize> {
    text.starts_with("//")
        .then(|| text.find('\n').unwrap_or(text.len()))
}

/// The length of the string that a text begins with. One that is not closed ends with its line.
fn string_length(text: &str) -> usize {
    let mut escaped = false;
    for (at, c) in text.char_indices().skip(1) {
        match c {
            '\n' => return at,
            '"' if !escaped => return at + 1,
            _ => escaped = c == '\\' && !escaped,
        }
    }
    text.len()
}

/// The length of the token that a text begins with, whose first character is given.
fn token_length(text: &str, first: char) -> usize {
    match first {
        '"' => string_length(text),
        c if in_word(c) => text.find(|c| !in_word(c)).unwrap_or(text.len()),
        c => c.len_utf8(),
    }
}

/// The tokens of a text.
pub fn tokens(text: &str) -> Vec<Token<'_>> {
    let (mut found, mut at) = (Vec::new(), 0);
    while let Some(first) = text[at..].chars().next() {
        if first.is_whitespace() {
            at += first.len_utf8();
        } else if let Some(length) = comment_length(&text[at..]) {
            at += length;
        } else {
            let token = Token {
                text: &text[at..at + token_length(&text[at..], first)],
                at,
            };
            at = token.end();
            found.push(token);
        }
    }
    found
}

/// A text with blanks for its comments, so that each place stays what it was.
pub fn without_comments(text: &str) -> String {
    let (mut code, mut at) = (String::with_capacity(text.len()), 0);
    while let Some(first) = text[at..].chars().next() {
        let rest = &text[at..];
        at += match comment_length(rest) {
            Some(length) => {
                code.push_str(&" ".repeat(length));
                length
            }
            None => {
                let length = token_length(rest, first);
                code.push_str(&rest[..length]);
                length
            }
        };
    }
    code
}

/// The number of the token just past the bracket that closes the one at `at`.
pub fn past_bracket(tokens: &[Token], at: usize) -> usize {
    let opening = tokens[at].text;
    let closing = match opening {
        "(" => ")",
        "[" => "]",
        _ => "}",
    };
    let mut depth = 0;
    for (number, token) in tokens.iter().enumerate().skip(at) {
        depth += i32::from(token.text == opening) - i32::from(token.text == closing);
        if depth == 0 {
            return number + 1;
        }
    }
    tokens.len()
}

/// A text on one line, with one blank for each white space.
pub fn on_one_line(text: &str) -> String {
    let words: Vec<&str> = text.split_whitespace().collect();
    words.join(" ")
}

/// Whether tokens end in these.
pub fn ends_with(tokens: &[Token], wanted: &[&str]) -> bool {
    tokens.len() >= wanted.len()
        && tokens
            .iter()
            .rev()
            .zip(wanted.iter().rev())
            .all(|(token, text)| token.text == *text)
}

/// Whether a word stands in a text.
pub fn has_word(text: &str, word: &str) -> bool {
    tokens(text).iter().any(|token| token.text == word)
}

/// The number of the line that a place is in.
pub fn line_at(text: &str, at: usize) -> usize {
    text[..at].matches('\n').count() + 1
}

/// A line's code: what stands before a comment that begins it or follows a blank.
pub fn before_comment<'a>(line: &'a str, mark: &str) -> &'a str {
    let mut code_ends = Some(0);
    for (at, c) in line.char_indices() {
        match code_ends {
            Some(end) if line[at..].starts_with(mark) => return &line[..end],
            _ => code_ends = c.is_whitespace().then_some(at),
        }
    }
    line
}

#[cfg(test)]
mod tests {
    use super::*;

    fn texts(text: &str) -> Vec<&str> {
        tokens(text).iter().map(|token| token.text).collect()
    }

    #[test]
    fn comments_are_no_tokens_and_strings_are_one() {
        assert_eq!(
            texts("a::b(c) // fn d()\n{ e }"),
            ["a", ":", ":", "b", "(", "c", ")", "{", "e", "}"]
        );
        assert_eq!(
            texts(r#"put(b"// no {comment}", 1)"#),
            ["put", "(", "b", r#""// no {comment}""#, ",", "1", ")"]
        );
        assert_eq!(texts(r#""a \" b \\" c"#), [r#""a \" b \\""#, "c"]);
        assert_eq!(texts("\"open\nnext"), ["\"open", "next"]);
        assert_eq!(
            texts("λ r. ⌜ r ≡ x' ⌝"),
            ["λ", "r", ".", "⌜", "r", "≡", "x", "'", "⌝"]
        );
    }

    #[test]
    fn blanks_for_comments_keep_each_place() {
        let text = "a // ≡ {\nb \"// c\" // d";
        let code = without_comments(text);
        assert_eq!(code.len(), text.len());
        assert_eq!(code.trim_end(), "a         \nb \"// c\"");
        assert_eq!(code.find('b'), text.find('b'));
    }

    #[test]
    fn a_bracket_closes_behind_those_inside_it() {
        let text = "{ a { b } \"}\" // }\n } c";
        let tokens = tokens(text);
        assert_eq!(tokens[past_bracket(&tokens, 0)].text, "c");
        assert_eq!(past_bracket(&tokens[..3], 0), 3);
    }

    #[test]
    fn each_bracket_closes_by_its_own_sign() {
        let text = "#[a(b[c])] ( ] } )";
        let tokens = tokens(text);
        assert_eq!(past_bracket(&tokens, 1), 10);
        assert_eq!(past_bracket(&tokens, 10), 14);
    }

    #[test]
    fn white_space_is_one_blank() {
        assert_eq!(on_one_line(" a  b\n    ≡ c( d )\n"), "a b ≡ c( d )");
    }

    #[test]
    fn words_are_whole() {
        assert!(has_word("x + WIDTH * 2", "WIDTH"));
        assert!(!has_word("x + WIDTHS * 2 // WIDTH", "WIDTH"));
    }

    #[test]
    fn a_comment_begins_a_line_or_follows_a_blank() {
        assert_eq!(before_comment("a -- b", "--"), "a");
        assert_eq!(before_comment("a  # b # c", "#"), "a ");
        assert_eq!(before_comment("-- b", "--"), "");
        assert_eq!(before_comment("a--b", "--"), "a--b");
        assert_eq!(before_comment("http://x", "//"), "http://x");
    }

    #[test]
    fn lines_count_from_one() {
        assert_eq!(line_at("a\nb\nc", 0), 1);
        assert_eq!(line_at("a\nb\nc", 4), 3);
    }
}

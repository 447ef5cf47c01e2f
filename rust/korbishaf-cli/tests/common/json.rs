//! A reader of JSON for the tests, which shares nothing with the command's writer and takes nothing but JSON.

#![allow(dead_code, reason = "not every test uses everything")]

/// A value. Numbers are kept as they are written.
#[derive(Clone, Debug, PartialEq)]
pub enum Value {
    Null,
    Bool(bool),
    Number(String),
    Text(String),
    List(Vec<Value>),
    Object(Vec<(String, Value)>),
}

impl Value {
    /// The value behind a path of members and places, as in `header/scales/0`.
    pub fn at(&self, path: &str) -> &Value {
        path.split('/').fold(self, |value, step| match value {
            Value::Object(members) => {
                let found = members.iter().find(|(name, _)| name == step);
                &found.unwrap_or_else(|| panic!("no {step} of {path}")).1
            }
            Value::List(items) => &items[step.parse::<usize>().unwrap()],
            other => panic!("{other:?} has no {step} of {path}"),
        })
    }

    pub fn number(&self) -> u64 {
        match self {
            Value::Number(number) => number.parse().unwrap(),
            other => panic!("{other:?} is no number"),
        }
    }

    /// A double: a number, or the string that stands for one that JSON does not have.
    pub fn double(&self) -> f64 {
        match self {
            Value::Number(text) | Value::Text(text) => text.parse().unwrap(),
            other => panic!("{other:?} is no double"),
        }
    }

    pub fn text(&self) -> &str {
        match self {
            Value::Text(text) => text,
            other => panic!("{other:?} is no text"),
        }
    }

    pub fn list(&self) -> &[Value] {
        match self {
            Value::List(items) => items,
            other => panic!("{other:?} is no list"),
        }
    }
}

/// Reads one value with nothing but blanks around it; none where it is no JSON, or an object has a name twice.
pub fn read(text: &str) -> Option<Value> {
    let mut reader = Reader(text);
    let value = reader.value()?;
    reader.blanks();
    reader.0.is_empty().then_some(value)
}

struct Reader<'a>(&'a str);

impl Reader<'_> {
    fn blanks(&mut self) {
        self.0 = self.0.trim_start_matches([' ', '\n', '\r', '\t']);
    }

    /// Takes what is expected next, behind blanks.
    fn takes(&mut self, expected: &str) -> bool {
        self.blanks();
        let rest = self.0.strip_prefix(expected);
        self.0 = rest.unwrap_or(self.0);
        rest.is_some()
    }

    fn value(&mut self) -> Option<Value> {
        self.blanks();
        match self.0.chars().next()? {
            '{' => self.object(),
            '[' => self.list(),
            '"' => Some(Value::Text(self.string()?)),
            '-' | '0'..='9' => self.number(),
            _ if self.takes("null") => Some(Value::Null),
            _ if self.takes("true") => Some(Value::Bool(true)),
            _ if self.takes("false") => Some(Value::Bool(false)),
            _ => None,
        }
    }

    fn object(&mut self) -> Option<Value> {
        let mut members: Vec<(String, Value)> = Vec::new();
        self.takes("{");
        if self.takes("}") {
            return Some(Value::Object(members));
        }
        loop {
            self.blanks();
            let name = self.string()?;
            if !self.takes(":") || members.iter().any(|(other, _)| *other == name) {
                return None;
            }
            members.push((name, self.value()?));
            if !self.takes(",") {
                return self.takes("}").then_some(Value::Object(members));
            }
        }
    }

    fn list(&mut self) -> Option<Value> {
        let mut items = Vec::new();
        self.takes("[");
        if self.takes("]") {
            return Some(Value::List(items));
        }
        loop {
            items.push(self.value()?);
            if !self.takes(",") {
                return self.takes("]").then_some(Value::List(items));
            }
        }
    }

    fn string(&mut self) -> Option<String> {
        let mut letters = self.0.strip_prefix('"')?.chars();
        let mut text = String::new();
        loop {
            match letters.next()? {
                '"' => break,
                '\\' => text.push(match letters.next()? {
                    'b' => '\x08',
                    'f' => '\x0C',
                    'n' => '\n',
                    'r' => '\r',
                    't' => '\t',
                    'u' => {
                        let digits: String = letters.by_ref().take(4).collect();
                        let plain = digits.len() == 4 && !digits.starts_with('+');
                        let code = u32::from_str_radix(&digits, 16).ok().filter(|_| plain)?;
                        char::from_u32(code)?
                    }
                    same @ ('"' | '\\' | '/') => same,
                    _ => return None,
                }),
                '\0'..='\x1F' => return None,
                letter => text.push(letter),
            }
        }
        self.0 = letters.as_str();
        Some(text)
    }

    /// A number by the grammar: no leading zeros or plus, and digits around a point and behind an exponent.
    fn number(&mut self) -> Option<Value> {
        let length = self
            .0
            .find(|letter: char| !matches!(letter, '0'..='9' | '-' | '+' | '.' | 'e' | 'E'));
        let (number, rest) = self.0.split_at(length.unwrap_or(self.0.len()));
        let size = number.strip_prefix('-').unwrap_or(number);
        let (size, exponent) = match size.split_once(['e', 'E']) {
            Some((size, exponent)) => (size, exponent.strip_prefix(['-', '+']).unwrap_or(exponent)),
            None => (size, "0"),
        };
        let (whole, fraction) = size.split_once('.').unwrap_or((size, "0"));
        let digits = |text: &str| !text.is_empty() && text.bytes().all(|b| b.is_ascii_digit());
        let leading_zero = whole.len() > 1 && whole.starts_with('0');
        let good = digits(whole) && digits(fraction) && digits(exponent) && !leading_zero;
        self.0 = rest;
        good.then(|| Value::Number(number.into()))
    }
}

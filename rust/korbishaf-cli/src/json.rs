//! Values in JSON, for programs.

use std::fmt::{self, Write};

/// A value. An object's members stand in the order that they are given in.
pub enum LazyJson<'a> {
    /// Nothing.
    Null,
    /// Yes or no.
    Bool(bool),
    /// A whole number.
    Number(i128),
    /// A double: a number that reads back as the same double, or a string for those that JSON has no number for.
    Double(f64),
    /// A text.
    Text(String),
    /// A list.
    List(Vec<LazyJson<'a>>),
    /// A list whose items are made one by one while it is written.
    Each(Box<Each<'a>>),
    /// An object.
    Object(Vec<(&'static str, LazyJson<'a>)>),
}

/// A value that is whole, and borrows nothing.
pub type Json = LazyJson<'static>;

/// Hands each item of a list to whoever writes it, and ends with the first that is not written.
type Each<'a> = dyn Fn(&mut Take<'_>) -> fmt::Result + 'a;

/// Writes an item.
type Take<'t> = dyn FnMut(&LazyJson<'_>) -> fmt::Result + 't;

impl<'a> LazyJson<'a> {
    /// A list of what each of these is turned into, all of it in memory.
    pub fn list<T>(items: impl IntoIterator<Item = T>, value: impl Fn(T) -> Self) -> Self {
        LazyJson::List(items.into_iter().map(value).collect())
    }

    /// The same list, but one item at a time is in memory: for as many as a file has.
    pub fn each<T>(
        items: impl Iterator<Item = T> + Clone + 'a,
        value: impl Fn(T) -> Json + 'a,
    ) -> Self {
        LazyJson::Each(Box::new(move |take| {
            items.clone().try_for_each(|item| take(&value(item)))
        }))
    }

    /// A text.
    pub fn text(text: impl Into<String>) -> Self {
        LazyJson::Text(text.into())
    }

    /// A whole number.
    pub fn number(number: impl Into<i128>) -> Self {
        LazyJson::Number(number.into())
    }

    /// The number of bytes, points or records.
    pub fn count(count: usize) -> Self {
        LazyJson::Number(count as i128)
    }

    fn write(&self, f: &mut fmt::Formatter<'_>, depth: usize) -> fmt::Result {
        match self {
            LazyJson::Null => f.write_str("null"),
            LazyJson::Bool(value) => write!(f, "{value}"),
            LazyJson::Number(number) => write!(f, "{number}"),
            LazyJson::Double(double) if double.is_finite() => write!(f, "{double:?}"),
            LazyJson::Double(double) => write_text(f, &double.to_string()),
            LazyJson::Text(text) => write_text(f, text),
            LazyJson::List(items) => {
                let mut list = Items::open(f, depth, ['[', ']'])?;
                items.iter().try_for_each(|item| list.item(None, item))?;
                list.close()
            }
            LazyJson::Each(each) => {
                let mut list = Items::open(f, depth, ['[', ']'])?;
                each(&mut |item| list.item(None, item))?;
                list.close()
            }
            LazyJson::Object(members) => {
                let mut object = Items::open(f, depth, ['{', '}'])?;
                let mut members = members.iter();
                members.try_for_each(|(name, value)| object.item(Some(name), value))?;
                object.close()
            }
        }
    }
}

/// A list or an object that is being written.
struct Items<'f, 'g> {
    f: &'f mut fmt::Formatter<'g>,
    depth: usize,
    close: char,
    some: bool,
}

impl<'f, 'g> Items<'f, 'g> {
    fn open(
        f: &'f mut fmt::Formatter<'g>,
        depth: usize,
        [open, close]: [char; 2],
    ) -> Result<Self, fmt::Error> {
        f.write_char(open)?;
        Ok(Items {
            f,
            depth,
            close,
            some: false,
        })
    }

    fn item(&mut self, name: Option<&str>, value: &LazyJson<'_>) -> fmt::Result {
        let depth = self.depth + 1;
        self.f.write_str(if self.some { ",\n" } else { "\n" })?;
        write!(self.f, "{:1$}", "", 2 * depth)?;
        if let Some(name) = name {
            write_text(self.f, name)?;
            self.f.write_str(": ")?;
        }
        self.some = true;
        value.write(self.f, depth)
    }

    fn close(self) -> fmt::Result {
        if self.some {
            write!(self.f, "\n{:1$}", "", 2 * self.depth)?;
        }
        self.f.write_char(self.close)
    }
}

fn write_text(f: &mut fmt::Formatter<'_>, text: &str) -> fmt::Result {
    f.write_str("\"")?;
    for letter in text.chars() {
        match letter {
            '"' | '\\' => write!(f, "\\{letter}")?,
            '\0'..='\x1F' | '\x7F' => write!(f, "\\u{:04x}", u32::from(letter))?,
            _ => f.write_char(letter)?,
        }
    }
    f.write_str("\"")
}

impl fmt::Display for LazyJson<'_> {
    fn fmt(&self, f: &mut fmt::Formatter<'_>) -> fmt::Result {
        self.write(f, 0)
    }
}

#[cfg(test)]
mod tests {
    use super::*;

    #[test]
    fn values() {
        let value = Json::Object(vec![
            ("empty", Json::List(vec![])),
            ("text", Json::text("a\"\\\n\u{fc}")),
            ("list", Json::list([1, -2], Json::number)),
            ("double", Json::Double(0.01)),
            ("whole", Json::Double(1e300)),
            ("none", Json::Double(f64::NAN)),
            ("least", Json::Double(f64::NEG_INFINITY)),
            ("yes", Json::Bool(true)),
            ("nothing", Json::Null),
        ]);
        let wanted = "{\n  \"empty\": [],\n  \"text\": \"a\\\"\\\\\\u000a\u{fc}\",\n  \
                      \"list\": [\n    1,\n    -2\n  ],\n  \
                      \"double\": 0.01,\n  \"whole\": 1e300,\n  \"none\": \"NaN\",\n  \"least\": \"-inf\",\n  \
                      \"yes\": true,\n  \"nothing\": null\n}";
        assert_eq!(value.to_string(), wanted);
    }

    #[test]
    fn a_list_looks_the_same_however_it_is_made() {
        for length in 0..4 {
            let object = |number| Json::Object(vec![("number", Json::count(number))]);
            let whole = Json::Object(vec![("list", Json::list(0..length, object))]);
            let lazy = Json::Object(vec![("list", Json::each(0..length, object))]);
            assert_eq!(lazy.to_string(), whole.to_string());
        }
    }

    #[test]
    fn items_behind_one_that_is_not_written_are_not_made() {
        struct Full;
        impl Write for Full {
            fn write_str(&mut self, text: &str) -> fmt::Result {
                if text.contains('7') {
                    Err(fmt::Error)
                } else {
                    Ok(())
                }
            }
        }
        let made = std::cell::Cell::new(0);
        let list = LazyJson::each(0..1000, |item| {
            made.set(item);
            Json::count(item)
        });
        assert!(write!(Full, "{list}").is_err());
        drop(list);
        assert_eq!(made.get(), 7);
    }
}

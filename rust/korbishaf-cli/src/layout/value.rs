//! Values of fields, as they are shown.

use crate::json::Json;
use crate::shown;
use std::fmt;

/// What a field holds.
#[derive(Clone, Copy, Debug, PartialEq, Eq)]
pub enum Kind {
    /// A whole number, the lowest byte first.
    Number,
    /// A double.
    Double,
    /// A text.
    Text,
    /// Bytes.
    Bytes,
}

/// What stands in a field.
#[derive(Clone, Debug)]
pub enum Value {
    Number(u64),
    Double(f64),
    Text(Vec<u8>),
    Bytes(Vec<u8>),
}

impl Value {
    /// The value of a field of a kind. A text ends with its last byte that is not zero.
    pub fn read(kind: Kind, field: &[u8]) -> Self {
        match kind {
            Kind::Number => Value::Number(number(field)),
            Kind::Double => Value::Double(f64::from_bits(number(field))),
            Kind::Text => {
                let length = field.iter().rposition(|&byte| byte != 0);
                let text = field.iter().take(length.map_or(0, |last| last + 1));
                Value::Text(text.copied().collect())
            }
            Kind::Bytes => Value::Bytes(field.to_vec()),
        }
    }

    /// The value as JSON.
    pub fn json(&self) -> Json {
        match self {
            Value::Number(number) => Json::number(*number),
            Value::Double(double) => Json::Double(*double),
            Value::Text(text) => Json::text(shown::text(text)),
            Value::Bytes(_) => Json::text(self.to_string()),
        }
    }
}

/// The number of these bytes, the lowest first.
pub fn number(field: &[u8]) -> u64 {
    let highest_first = field.iter().rev();
    highest_first.fold(0, |number, &byte| number << 8 | u64::from(byte))
}

impl fmt::Display for Value {
    fn fmt(&self, f: &mut fmt::Formatter<'_>) -> fmt::Result {
        match self {
            Value::Number(number) => write!(f, "{number}"),
            Value::Double(double) => write!(f, "{double:?}"),
            Value::Text(text) => write!(f, "\"{}\"", shown::text(text)),
            Value::Bytes(bytes) => {
                let bytes: Vec<_> = bytes.iter().map(|byte| format!("{byte:02X}")).collect();
                f.write_str(&bytes.join(" "))
            }
        }
    }
}

#[cfg(test)]
mod tests {
    use super::*;

    #[test]
    fn values_are_shown() {
        let shown = |kind, field: &[u8]| Value::read(kind, field).to_string();
        assert_eq!(shown(Kind::Number, &[1, 2]), "513");
        assert_eq!(shown(Kind::Number, &[0xFF; 8]), u64::MAX.to_string());
        assert_eq!(shown(Kind::Double, &(-0.0f64).to_le_bytes()), "-0.0");
        assert_eq!(shown(Kind::Text, b"a\0\x1Bb\0\0"), "\"a\\x00\\x1Bb\"");
        assert_eq!(shown(Kind::Text, &[0; 4]), "\"\"");
        assert_eq!(shown(Kind::Bytes, &[0, 0xBB]), "00 BB");
        assert_eq!(shown(Kind::Bytes, &[]), "");
    }
}

//! A warning.

use crate::json::Json;

/// Something that whoever wrote the sheet may not have meant.
pub struct Warning {
    /// What it is about, for programs.
    pub kind: &'static str,
    /// What it says.
    pub words: String,
    /// What the words speak of.
    about: Vec<(&'static str, Json)>,
}

impl Warning {
    /// A warning with what it speaks of.
    pub fn new(kind: &'static str, words: String, about: Vec<(&'static str, Json)>) -> Self {
        Warning { kind, words, about }
    }

    /// The warning as an object.
    pub fn into_json(self) -> Json {
        let mut members = vec![
            ("kind", Json::text(self.kind)),
            ("words", Json::text(self.words)),
        ];
        members.extend(self.about);
        Json::Object(members)
    }
}

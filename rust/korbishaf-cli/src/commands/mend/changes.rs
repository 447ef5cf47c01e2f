//! What a mending changed in the header.

use crate::layout::{Field, Value, of_points};
use korbishaf::Error;

/// A field that mending sets right.
pub struct Change {
    pub field: &'static Field,
    /// What it was.
    pub before: Value,
    /// What it is.
    pub after: Value,
    /// Whether its bytes changed.
    pub changed: bool,
}

/// All twelve of them, in the order of the header.
pub struct Changes(Vec<Change>);

impl Changes {
    /// Mends a file, and remembers what its fields were. The library says which of them changed.
    pub fn by_mending(file: &mut [u8]) -> Result<Self, Error> {
        let before = values(file);
        let marks = korbishaf::mend(file)?.marks();
        let values = before.into_iter().zip(values(file));
        let changes = of_points().zip(marks).zip(values);
        Ok(Changes(
            changes
                .map(|((field, changed), (before, after))| Change {
                    field,
                    before,
                    after,
                    changed,
                })
                .collect(),
        ))
    }

    pub fn all(&self) -> &[Change] {
        &self.0
    }

    /// Those whose bytes changed.
    pub fn changed(&self) -> impl Iterator<Item = &Change> + Clone {
        self.0.iter().filter(|change| change.changed)
    }

    /// Whether there is one.
    pub fn any(&self) -> bool {
        self.changed().next().is_some()
    }
}

/// What stands in the fields; of a file that is too short, in those that it has.
fn values(file: &[u8]) -> Vec<Value> {
    let values = of_points().filter_map(|field| Some(Value::read(field.kind, field.bytes(file)?)));
    values.collect()
}

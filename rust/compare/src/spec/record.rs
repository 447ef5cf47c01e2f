//! Variable length records.

use super::text::{USER_IDS, cut, random_text, with_tail};
use crate::rng::Rng;

/// Record IDs that files and sheets are made with.
pub const RECORD_IDS: [u16; 7] = [0, 1, 7, 34735, 34736, 34737, 65535];

/// A variable length record.
#[derive(Debug, Clone, PartialEq, Eq)]
pub struct RecordSpec {
    pub reserved: [u8; 2],
    pub user: [u8; 16],
    pub record_id: u16,
    pub description: [u8; 32],
    pub payload: Vec<u8>,
}

impl RecordSpec {
    pub fn random(rng: &mut Rng) -> Self {
        let name = rng.pick(&USER_IDS);
        Self {
            reserved: rng.array(),
            user: with_tail(rng, name),
            record_id: rng.pick(&RECORD_IDS),
            description: random_text(rng),
            payload: rng.some_bytes(90),
        }
    }

    pub fn cut_user(&self) -> &[u8] {
        cut(&self.user)
    }

    /// The bytes of the whole record.
    pub fn size(&self) -> usize {
        54 + self.payload.len()
    }

    pub fn append_to(&self, file: &mut Vec<u8>) {
        let length = self.payload.len() as u16;
        file.extend(self.reserved);
        file.extend(self.user);
        file.extend(self.record_id.to_le_bytes());
        file.extend(length.to_le_bytes());
        file.extend(self.description);
        file.extend(&self.payload);
    }
}

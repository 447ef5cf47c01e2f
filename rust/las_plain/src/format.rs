//! The four point formats of LAS 1.2.

/// A point data record format, 0 to 3.
#[derive(Debug, Clone, Copy, PartialEq, Eq)]
pub enum PointFormat {
    /// The twenty bytes that all formats share.
    F0,
    /// With GPS time.
    F1,
    /// With colour.
    F2,
    /// With GPS time and colour.
    F3,
}

impl PointFormat {
    /// The format with this number, if LAS 1.2 has one.
    pub fn from_id(id: u8) -> Option<Self> {
        match id {
            0 => Some(Self::F0),
            1 => Some(Self::F1),
            2 => Some(Self::F2),
            3 => Some(Self::F3),
            _ => None,
        }
    }

    /// The format's number.
    pub fn id(self) -> u8 {
        match self {
            Self::F0 => 0,
            Self::F1 => 1,
            Self::F2 => 2,
            Self::F3 => 3,
        }
    }

    /// The bytes of a record without extra bytes.
    pub fn size(self) -> usize {
        match self {
            Self::F0 => 20,
            Self::F1 => 28,
            Self::F2 => 26,
            Self::F3 => 34,
        }
    }

    /// Where the GPS time stands, if the format has one.
    pub fn time_place(self) -> Option<usize> {
        match self {
            Self::F0 | Self::F2 => None,
            Self::F1 | Self::F3 => Some(20),
        }
    }

    /// Where red, green and blue begin, if the format has them.
    pub fn colour_place(self) -> Option<usize> {
        match self {
            Self::F0 | Self::F1 => None,
            Self::F2 => Some(20),
            Self::F3 => Some(28),
        }
    }
}

//! Ends of sheets on both sides of the boundary of each sheet check.

/// What may stand behind up to 63 good lines, and the number that the sheet then has.
pub const ENDS: [(&[u8], u64); 39] = [
    (b"", 0),
    (b"K", 22),
    (b"KS", 22),
    (b"\0\0", 22),
    (b"KS\x01", 22),
    (b"KS\x01\x02", 22),
    (b"KS\x01\x02\x02", 0),
    (b"KS\x01\x02\x03", 0),
    (b"KS\x01\x03\x02", 23),
    (b"KS\x01\x09", 22),
    (b"KS\x01\xFF\x00", 23),
    (b"KS\x01\x00\xFF", 0),
    (b"KS\x01\x80\x7F", 23),
    (b"KS\x01\x7F\x80", 0),
    (b"KT\x01\x02\x02", 20),
    (b"LS\x01\x02\x02", 20),
    (b"SK\x01\x02\x02", 20),
    (b"KT\x07", 20),
    (b"KT\x03", 20),
    (b"KS\x00", 21),
    (b"KS\x04", 21),
    (b"KS\x04\x02\x02", 21),
    (b"KS\x04twenty-four bytes follow..", 21),
    (b"KS\xFF", 21),
    (b"KS\x02seventeen bytes..", 22),
    (b"KS\x02eighteen  bytes...", 0),
    // Boxes: low X, high X, low Y, high Y, low Z, high Z. Beside each of 7 one that is reversed by one step.
    (b"KS\x03", 22),
    (b"KS\x03\x02\x02", 22),
    (
        b"KS\x03\x07\0\0\0\x07\0\0\0\x07\0\0\0\x07\0\0\0\x07\0\0\0\x07\0\0",
        22,
    ),
    (
        b"KS\x03\x07\0\0\0\x07\0\0\0\x07\0\0\0\x07\0\0\0\x07\0\0\0\x07\0\0\0",
        0,
    ),
    (
        b"KS\x03\x08\0\0\0\x07\0\0\0\x07\0\0\0\x07\0\0\0\x07\0\0\0\x07\0\0\0",
        23,
    ),
    (
        b"KS\x03\x07\0\0\0\x07\0\0\0\x08\0\0\0\x07\0\0\0\x07\0\0\0\x07\0\0\0",
        23,
    ),
    (
        b"KS\x03\x07\0\0\0\x07\0\0\0\x07\0\0\0\x07\0\0\0\x08\0\0\0\x07\0\0\0",
        23,
    ),
    (
        b"KS\x03\x08\0\0\0\x07\0\0\0\x08\0\0\0\x07\0\0\0\x08\0\0\0\x07\0\0",
        22,
    ),
    // From -1 to 0, and from 0 to -1; from -2^31 to 2^31 - 1, and back.
    (
        b"KS\x03\0\0\0\0\0\0\0\0\xFF\xFF\xFF\xFF\0\0\0\0\0\0\0\0\0\0\0\0",
        0,
    ),
    (
        b"KS\x03\0\0\0\0\0\0\0\0\0\0\0\0\xFF\xFF\xFF\xFF\0\0\0\0\0\0\0\0",
        23,
    ),
    (
        b"KS\x03\0\0\0\0\0\0\0\0\0\0\0\0\0\0\0\0\0\0\0\x80\xFF\xFF\xFF\x7F",
        0,
    ),
    (
        b"KS\x03\0\0\0\0\0\0\0\0\0\0\0\0\0\0\0\0\xFF\xFF\xFF\x7F\0\0\0\x80",
        23,
    ),
    (
        b"KS\x03\0\0\0\x80\xFF\xFF\xFF\x7F\0\0\0\x80\xFF\xFF\xFF\x7F\0\0\0\x80\xFF\xFF\xFF\x7F",
        0,
    ),
];

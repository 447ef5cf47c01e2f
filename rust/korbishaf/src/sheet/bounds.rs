//! The bounds of a box: the lowest and the highest stored value on each axis.

use std::fmt;

/// The axes, by the names that a text has them by and in the order that the bytes have them in.
pub(super) const AXES: [&str; 3] = ["X", "Y", "Z"];

/// All stored values, which is what a text means by an axis that it leaves out.
pub(super) const WHOLE_AXIS: (i32, i32) = (i32::MIN, i32::MAX);

/// The bytes of a box: low X, high X, low Y, high Y, low Z, high Z.
pub(super) fn to_bytes(low: [i32; 3], high: [i32; 3]) -> impl Iterator<Item = u8> {
    let values = low.into_iter().zip(high);
    let values = values.flat_map(|(low, high)| [low, high]);
    values.flat_map(i32::to_le_bytes)
}

/// The lowest and the highest stored values that these bytes have.
pub(super) fn from_bytes(bytes: &[u8; 24]) -> ([i32; 3], [i32; 3]) {
    let values = bytes.as_chunks().0;
    let stored = |place: usize| i32::from_le_bytes(values[place]);
    ([0, 2, 4].map(stored), [1, 3, 5].map(stored))
}

/// Writes a box as a sheet's text has it. An axis that is whole is left out, but not all three, since a box without an
/// axis is no text.
pub(super) fn write(f: &mut fmt::Formatter<'_>, low: &[i32; 3], high: &[i32; 3]) -> fmt::Result {
    let whole = |axis: usize| (low[axis], high[axis]) == WHOLE_AXIS;
    let all_whole = (0..AXES.len()).all(whole);
    f.write_str("box")?;
    for (axis, name) in AXES.iter().enumerate() {
        if all_whole || !whole(axis) {
            write!(f, " {name} {}..{}", low[axis], high[axis])?;
        }
    }
    Ok(())
}

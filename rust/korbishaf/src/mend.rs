//! Mending.

use crate::error::{Error, passes};
use crate::sys;

/// Which fields of a header a mending changed. Triples stand in the order X, Y, Z, as in [`Header`](crate::Header).
///
/// A field counts as changed where its bytes did: -0.0 that becomes +0.0 is a change.
#[derive(Clone, Copy, Debug, Default, PartialEq, Eq, Hash)]
pub struct Mended {
    /// The number of points.
    pub point_count: bool,
    /// The numbers of points by return, 1 to 5.
    pub points_by_return: [bool; 5],
    /// The largest coordinates.
    pub max: [bool; 3],
    /// The smallest coordinates.
    pub min: [bool; 3],
}

impl Mended {
    /// The twelve in the order that the header has the fields in: number of points, points by return 1 to 5, max X,
    /// min X, max Y, min Y, max Z, min Z.
    #[must_use]
    pub fn marks(&self) -> [bool; 12] {
        let [one, two, three, four, five] = self.points_by_return;
        let ([max_x, max_y, max_z], [min_x, min_y, min_z]) = (self.max, self.min);
        let count = self.point_count;
        [
            count, one, two, three, four, five, max_x, min_x, max_y, min_y, max_z, min_z,
        ]
    }

    /// Whether any field changed.
    #[must_use]
    pub fn any(&self) -> bool {
        *self != Mended::default()
    }

    /// The fields of the marks that the library answered.
    fn from_sys(marks: [u64; 12]) -> Self {
        let [count, one, two, three, four, five, bounds @ ..] = marks.map(|mark| mark != 0);
        let [max_x, min_x, max_y, min_y, max_z, min_z] = bounds;
        Mended {
            point_count: count,
            points_by_return: [one, two, three, four, five],
            max: [max_x, max_y, max_z],
            min: [min_x, min_y, min_z],
        }
    }
}

/// Mends what a file's header states of its points, in place, and says which fields changed.
///
/// The number of points becomes the smaller of the stated number and the whole records that the file has behind the
/// point offset. The points by return and the bounds become those of these points; without points the bounds are +0.0.
/// No other byte changes. A mended file passes the checks, and mending it again changes nothing. Of a file that passed
/// before, the release under every sheet stays the same.
///
/// # Errors
///
/// 1 to 8 and 10 where the file does not pass for another reason than its number of points; 9 is not given. The file is
/// then unchanged.
///
/// ```
/// let mut file = vec![0; 227 + 20 + 7]; // a header, a point, and the beginning of another one
/// file[..4].copy_from_slice(b"LASF");
/// file[24..26].copy_from_slice(&[1, 2]); // version 1.2
/// file[94] = 227; // header size
/// file[96] = 227; // offset to points
/// file[105] = 20; // record length, of point format 0
/// file[107] = 2; // number of points
/// for scale in [131, 139, 147] {
///     file[scale..scale + 8].copy_from_slice(&0.5f64.to_le_bytes());
/// }
/// file[227] = 3; // X of the first point
///
/// assert_eq!(korbishaf::check_file(&file).unwrap_err().number(), 9); // the points run past the file's end
/// let mended = korbishaf::mend(&mut file)?;
/// assert!(mended.point_count);
/// assert_eq!(mended.max, [true, false, false]);
///
/// let header = korbishaf::read_header(&file)?;
/// assert_eq!((header.point_count, header.max), (1, [1.5, 0.0, 0.0]));
/// assert!(!korbishaf::mend(&mut file)?.any());
/// # Ok::<(), korbishaf::Error>(())
/// ```
pub fn mend(file: &mut [u8]) -> Result<Mended, Error> {
    // SAFETY: pointer and length are those of one slice, which is borrowed for writing.
    let mended = unsafe { sys::las_mend(file.as_mut_ptr(), file.len() as u64) };
    passes(mended.number)?;
    Ok(Mended::from_sys(mended.marks))
}

#[cfg(test)]
mod tests {
    use super::*;

    /// Each mark alone, by its place among the twelve.
    #[test]
    fn every_mark_has_its_field() {
        let alone = |place: usize| {
            let mut marks = [0; 12];
            marks[place] = 1;
            Mended::from_sys(marks)
        };
        assert!(alone(0).point_count);
        for place in 0..5 {
            assert!(alone(1 + place).points_by_return[place]);
        }
        for axis in 0..3 {
            assert!(alone(6 + 2 * axis).max[axis]);
            assert!(alone(7 + 2 * axis).min[axis]);
        }
        for place in 0..12 {
            let marks: [bool; 12] = std::array::from_fn(|other| other == place);
            assert_eq!(alone(place).marks(), marks);
            assert!(alone(place).any());
        }
        assert!(!Mended::from_sys([0; 12]).any());
    }
}

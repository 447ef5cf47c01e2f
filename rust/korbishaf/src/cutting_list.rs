//! The cutting list: which parts of a file a release takes.

use crate::error::Error;
use crate::release::Released;
use crate::sheet::Sheet;
use crate::{bytes, sys};
use std::mem::{align_of, offset_of, size_of};

/// A line of a cutting list: a part of a file, which is the payload of a record or the whole record of a point.
///
/// A line says where something stands in the file. It is for whoever has the file, and not for those who get a sample
/// of it.
#[repr(C)]
#[derive(Clone, Copy, Debug, Default, PartialEq, Eq, Hash)]
pub struct CuttingLine {
    /// The place of the part: bytes from the front of the file.
    pub place: u64,
    /// How many bytes the part has. The payload of a record may have none.
    pub length: u64,
}

// The library takes these lines as its own, so that they have to be laid out alike.
const _: () = {
    assert!(size_of::<CuttingLine>() == size_of::<sys::las_line>());
    assert!(align_of::<CuttingLine>() == align_of::<sys::las_line>());
    assert!(offset_of!(CuttingLine, place) == offset_of!(sys::las_line, place));
    assert!(offset_of!(CuttingLine, length) == offset_of!(sys::las_line, length));
};

impl CuttingLine {
    /// The bytes of the part, from a file; none where the file has no such part.
    ///
    /// ```
    /// use korbishaf::CuttingLine;
    ///
    /// let line = CuttingLine { place: 2, length: 3 };
    /// assert_eq!(line.part_of(b"a file"), Some(&b"fil"[..]));
    /// assert_eq!(line.part_of(b"file"), None);
    /// ```
    #[must_use]
    pub fn part_of<'a>(&self, file: &'a [u8]) -> Option<&'a [u8]> {
        let from = file.get(usize::try_from(self.place).ok()?..)?;
        from.get(..usize::try_from(self.length).ok()?)
    }
}

/// The parts of a file that a release under a sheet takes: a line for the payload of every kept record, and then one
/// for every kept point, in the file's order. Withheld points are [never kept](crate#classes-and-flags).
///
/// Places never fall, and no two lines overlap. What else a released file has is not in the list: the header, and the
/// names and descriptions of records.
///
/// The list says where things stand in the file, and so also where there is something that is not kept: it is for
/// whoever has the file, and not to be handed on with a sample.
///
/// The list takes 16 bytes for each line. While it is made it has room for as many lines as [`most_lines`] gives.
///
/// # Errors
///
/// 1 to 10 where the file does not pass.
///
/// ```
/// use korbishaf::{CuttingLine, Sheet, cutting_list};
///
/// let mut file = vec![0; 227];
/// file[..4].copy_from_slice(b"LASF");
/// file[24..26].copy_from_slice(&[1, 2]); // version 1.2
/// file[94] = 227; // header size
/// file[96..98].copy_from_slice(&285u16.to_le_bytes()); // offset to points
/// file[100] = 1; // number of records
/// file[105] = 20; // record length, of point format 0
/// file[107] = 3; // number of points
/// for scale in [131, 139, 147] {
///     file[scale..scale + 8].copy_from_slice(&0.5f64.to_le_bytes());
/// }
/// let mut record = [0; 54 + 4]; // a header and a payload of four bytes
/// record[2..6].copy_from_slice(b"yard"); // user ID
/// record[18] = 7; // record ID
/// record[20] = 4; // payload length
/// record[54..].copy_from_slice(b"gate");
/// file.extend(record);
/// for class in [2, 6, 2] {
///     let mut point = [0; 20];
///     point[15] = class;
///     file.extend(point);
/// }
///
/// let sheet = Sheet::from_text("class 2\nrecord yard 7")?;
/// let list = cutting_list(&file, &sheet)?;
/// assert_eq!(list, [(281, 4), (285, 20), (325, 20)].map(|(place, length)| CuttingLine { place, length }));
/// assert_eq!(list[0].part_of(&file), Some(&b"gate"[..]));
/// # Ok::<(), Box<dyn std::error::Error>>(())
/// ```
pub fn cutting_list(file: &[u8], sheet: &Sheet) -> Result<Vec<CuttingLine>, Error> {
    bytes::cutting_list(file, sheet.as_bytes())
}

/// A number of lines that is enough for the list of a file under a sheet: as many as the file has records and points,
/// or as many as have room in the released file, which has a record or a point for each line, if these are fewer.
///
/// # Errors
///
/// 1 to 10 where the file does not pass.
pub fn most_lines(file: &[u8], sheet: &Sheet) -> Result<usize, Error> {
    bytes::most_lines(file, sheet.as_bytes())
}

/// Fills the front of a list with the lines that [`cutting_list`] gives, and gives their number. Lines behind them stay
/// as they were.
///
/// A list of as many lines as [`most_lines`] gives is never too short, and neither is one of as many as the header's
/// records and points together.
///
/// # Errors
///
/// 1 to 10 where the file does not pass, then 31 where the list is shorter than the kept records and points together.
/// The list is then unchanged.
pub fn cutting_list_into(
    file: &[u8],
    sheet: &Sheet,
    list: &mut [CuttingLine],
) -> Result<usize, Error> {
    bytes::cutting_list_into(file, sheet.as_bytes(), list)
}

/// Releases in a second, plain way: fills the list as [`cutting_list_into`] does, and writes from it. Where the list is
/// long enough, answer and output are those of [`release`](crate::release).
///
/// # Errors
///
/// 1 to 10 where the file does not pass, then 31 where the list is shorter than the kept records and points together,
/// then 30 where the output is shorter than the released file, with the needed length in [`Error::needed`]. Output and
/// list are then unchanged.
///
/// ```
/// use korbishaf::{CuttingLine, Sheet, release_by_list};
///
/// let mut file = vec![0; 227 + 2 * 20]; // a header and two points
/// file[..4].copy_from_slice(b"LASF");
/// file[24..26].copy_from_slice(&[1, 2]); // version 1.2
/// file[94] = 227; // header size
/// file[96] = 227; // offset to points
/// file[105] = 20; // record length, of point format 0
/// file[107] = 2; // number of points
/// for scale in [131, 139, 147] {
///     file[scale..scale + 8].copy_from_slice(&0.5f64.to_le_bytes());
/// }
/// file[247 + 15] = 2; // the class of the second point
///
/// let sheet = Sheet::from_text("class 2")?;
/// let (mut out, mut list) = ([0; 247], [CuttingLine::default(); 2]);
/// let released = release_by_list(&file, &sheet, &mut out, &mut list)?;
/// assert_eq!((released.length, released.points, released.records), (247, 1, 0));
/// assert_eq!(out[..], korbishaf::release_to_vec(&file, &sheet)?);
/// assert_eq!(list, [CuttingLine { place: 247, length: 20 }, CuttingLine::default()]);
///
/// let refused = release_by_list(&file, &sheet, &mut out, &mut []).unwrap_err();
/// assert_eq!(refused.number(), 31);
/// # Ok::<(), Box<dyn std::error::Error>>(())
/// ```
pub fn release_by_list(
    file: &[u8],
    sheet: &Sheet,
    out: &mut [u8],
    list: &mut [CuttingLine],
) -> Result<Released, Error> {
    bytes::release_by_list(file, sheet.as_bytes(), out, list)
}

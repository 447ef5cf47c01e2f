//! Cutting lists over plain bytes.

use super::{release, released};
use crate::cutting_list::CuttingLine;
use crate::error::{Error, passes};
use crate::header::read_header;
use crate::release::Released;
use crate::{narrow, sys};

/// The bytes of a released file without records and points.
const HEADER: usize = 227;

/// The bytes of a record without a payload.
const RECORD_HEADER: usize = 54;

/// The parts of a file that a release under a sheet takes: a line for the payload of every kept record, and then one
/// for every kept point, in the file's order.
///
/// # Errors
///
/// 1 to 10 where the file does not pass, then 20 to 24 where the sheet does not.
pub fn cutting_list(file: &[u8], sheet: &[u8]) -> Result<Vec<CuttingLine>, Error> {
    let mut list = vec![CuttingLine::default(); most_lines(file, sheet)?];
    let lines = cutting_list_into(file, sheet, &mut list)?;
    list.truncate(lines);
    list.shrink_to_fit();
    Ok(list)
}

/// A number of lines that is enough for the list of a file under a sheet: as many as the file has records and points,
/// or as many as have room in the released file, which has a record or a point for each line, if these are fewer.
///
/// A list has to have room before anybody knows how many lines it gets; this is never too few for it.
///
/// # Errors
///
/// 1 to 10 where the file does not pass, then 20 to 24 where the sheet does not.
pub fn most_lines(file: &[u8], sheet: &[u8]) -> Result<usize, Error> {
    let length = match release(file, sheet, &mut []) {
        Ok(released) => released.length,
        Err(refused) => refused.needed().ok_or(refused)?,
    };
    // The file has passed, and so has room for all records and points that its header states.
    let header = read_header(file)?;
    let stated = narrow(u64::from(header.record_count) + u64::from(header.point_count));
    let shortest = usize::from(header.record_length).min(RECORD_HEADER);
    Ok(((length - HEADER) / shortest).min(stated))
}

/// Fills the front of a list with the lines of [`cutting_list`], and gives their number. Lines behind them stay as they
/// were.
///
/// # Errors
///
/// 1 to 10 where the file does not pass, then 20 to 24 where the sheet does not, then 31 where the list is shorter than
/// the kept records and points together. The list is then unchanged.
///
/// ```
/// let (file, sheet) = ([0; 227], [0x4B, 0x54, 1]);
/// let refused = korbishaf::bytes::cutting_list_into(&file, &sheet, &mut []).unwrap_err();
/// assert_eq!(refused.number(), 2); // the file is checked before the sheet
/// ```
pub fn cutting_list_into(
    file: &[u8],
    sheet: &[u8],
    list: &mut [CuttingLine],
) -> Result<usize, Error> {
    // SAFETY: each pointer and the length after it are those of one slice, and the lines are laid out as the library's;
    // the list is borrowed for writing, so that it overlaps neither of the others.
    let listed = unsafe {
        sys::las_cutting_list(
            file.as_ptr(),
            file.len() as u64,
            sheet.as_ptr(),
            sheet.len() as u64,
            list.as_mut_ptr().cast(),
            list.len() as u64,
        )
    };
    passes(listed.number)?;
    Ok(narrow(listed.lines))
}

/// Fills the list as [`cutting_list_into`] does, and writes the release from it. Where the list is long enough, answer
/// and output are those of [`release`].
///
/// # Errors
///
/// 1 to 10 where the file does not pass, then 20 to 24 where the sheet does not, then 31 where the list is shorter than
/// the kept records and points together, then 30 where the output is shorter than the released file, with the needed
/// length in [`Error::needed`]. Output and list are then unchanged.
pub fn release_by_list(
    file: &[u8],
    sheet: &[u8],
    out: &mut [u8],
    list: &mut [CuttingLine],
) -> Result<Released, Error> {
    // SAFETY: each pointer and the length after it are those of one slice, and the lines are laid out as the library's;
    // output and list are borrowed for writing, so that they overlap no other.
    released(unsafe {
        sys::las_release_by_list(
            file.as_ptr(),
            file.len() as u64,
            sheet.as_ptr(),
            sheet.len() as u64,
            out.as_mut_ptr(),
            out.len() as u64,
            list.as_mut_ptr().cast(),
            list.len() as u64,
        )
    })
}

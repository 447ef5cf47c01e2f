//! The interface's own functions that take a keep sheet, over plain bytes and with nothing added.
//!
//! A file and a sheet are both plain bytes here, and nothing but their order tells them apart; the functions of the
//! same names outside this module take a [`Sheet`](crate::Sheet). These answer for any bytes, sheets that do not pass
//! too, and in the interface's order of refusals: 1 to 10 for the file, 20 to 24 for the sheet, 31 for a list, then 30.

mod lists;

pub use lists::{cutting_list, cutting_list_into, most_lines, release_by_list};

use crate::error::{Error, passes, passes_or_needs};
use crate::release::Released;
use crate::sheet::ClassLine;
use crate::{narrow, sys};

/// Checks a keep sheet. An empty sheet is good and keeps nothing.
///
/// # Errors
///
/// 20 to 24 where the sheet does not pass.
///
/// ```
/// use korbishaf::bytes::check_sheet;
///
/// assert!(check_sheet(&[]).is_ok());
/// assert!(check_sheet(&[0x4B, 0x53, 1, 2, 2]).is_ok());
/// assert_eq!(check_sheet(&[0x4B, 0x53, 1, 3, 2]).unwrap_err().number(), 23);
/// assert_eq!(check_sheet(&[0x4B, 0x53, 3, 0, 0]).unwrap_err().number(), 22); // a box has 24 bytes behind its kind
/// ```
pub fn check_sheet(sheet: &[u8]) -> Result<(), Error> {
    // SAFETY: pointer and length are those of one slice.
    passes(unsafe { sys::las_check_sheet(sheet.as_ptr(), sheet.len() as u64) })
}

/// Whether a line of a sheet contains a class, from 0 to 255. It has no [flags](crate#classes-and-flags) in it, and
/// [boxes](crate#boxes) are not looked at.
///
/// # Errors
///
/// 20 to 24 where the sheet does not pass.
pub fn class_kept(sheet: &[u8], class: u8) -> Result<bool, Error> {
    // SAFETY: pointer and length are those of one slice.
    kept(unsafe { sys::las_class_kept(sheet.as_ptr(), sheet.len() as u64, class) })
}

/// Whether a line of a sheet holds a class, from 0 to 255, and how many lines were looked at for it: where `kept` is
/// true, line number `lines` answered, counted from 1. The class has no [flags](crate#classes-and-flags) in it.
///
/// # Errors
///
/// 20 to 24 where the sheet does not pass. The whole sheet is checked first, so that a fault behind the line that would
/// answer is given too.
///
/// ```
/// use korbishaf::{ClassLine, bytes::class_test};
///
/// let sheet = b"KS\x01\x02\x02KS\x01\x05\x03";
/// assert_eq!(class_test(&sheet[..5], 2)?, ClassLine { kept: true, lines: 1 });
/// assert_eq!(class_test(sheet, 2).unwrap_err().number(), 23);
/// # Ok::<(), korbishaf::Error>(())
/// ```
pub fn class_test(sheet: &[u8], class: u8) -> Result<ClassLine, Error> {
    // SAFETY: pointer and length are those of one slice.
    let answer = unsafe { sys::las_class_test(sheet.as_ptr(), sheet.len() as u64, class) };
    passes(answer.number)?;
    Ok(ClassLine {
        kept: answer.kept != 0,
        lines: narrow(answer.lines),
    })
}

/// Whether a sheet keeps the variable length records of a user ID and a record ID. The user ID has any number of
/// bytes; it and the sheet's own are [cut](crate#texts).
///
/// # Errors
///
/// 20 to 24 where the sheet does not pass.
pub fn record_kept(sheet: &[u8], user_id: &[u8], record_id: u16) -> Result<bool, Error> {
    // SAFETY: each pointer and the length after it are those of one slice.
    kept(unsafe {
        sys::las_record_kept(
            sheet.as_ptr(),
            sheet.len() as u64,
            user_id.as_ptr(),
            user_id.len() as u64,
            record_id,
        )
    })
}

/// Writes what a sheet keeps of a file to the output, as a file of its own with zeros behind it.
///
/// # Errors
///
/// 1 to 10 where the file does not pass, then 20 to 24 where the sheet does not, then 30 where the output is shorter
/// than the released file, with the needed length in [`Error::needed`]. The output is then unchanged.
///
/// ```
/// let (file, sheet) = ([0; 227], [0x4B, 0x54, 1]);
/// let refused = korbishaf::bytes::release(&file, &sheet, &mut []).unwrap_err();
/// assert_eq!(refused.number(), 2); // the file is checked before the sheet
/// ```
pub fn release(file: &[u8], sheet: &[u8], out: &mut [u8]) -> Result<Released, Error> {
    // SAFETY: each pointer and the length after it are those of one slice; the output is borrowed for writing, so
    // that it overlaps neither of the others.
    released(unsafe {
        sys::las_release(
            file.as_ptr(),
            file.len() as u64,
            sheet.as_ptr(),
            sheet.len() as u64,
            out.as_mut_ptr(),
            out.len() as u64,
        )
    })
}

/// The released file by itself, by two calls of [`release`]: an empty output asks for the needed length first.
///
/// # Errors
///
/// 1 to 10 where the file does not pass, then 20 to 24 where the sheet does not.
pub fn release_to_vec(file: &[u8], sheet: &[u8]) -> Result<Vec<u8>, Error> {
    let mut out = Vec::new();
    if let Err(refused) = release(file, sheet, &mut out) {
        let needed = refused.needed().ok_or(refused)?;
        out.resize(needed, 0);
        release(file, sheet, &mut out)?;
    }
    Ok(out)
}

fn released(answer: sys::las_released) -> Result<Released, Error> {
    passes_or_needs(answer.number, answer.length)?;
    Ok(Released {
        length: narrow(answer.length),
        points: answer.points,
        records: answer.records,
    })
}

fn kept(answer: sys::las_kept) -> Result<bool, Error> {
    passes(answer.number)?;
    Ok(answer.kept != 0)
}

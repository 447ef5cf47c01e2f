//! Cutting lists and releases by them, called through the C interface.

use korbishaf::sys;

use crate::answers::{Listed, Released};
use crate::lent::Lent;
use crate::lent_list::LentList;

pub fn cutting_list(file: &mut Lent, sheet: &mut Lent, list: &mut LentList) -> Listed {
    let (file, file_length) = (file.pointer(), file.length());
    let (sheet, sheet_length) = (sheet.pointer(), sheet.length());
    let (lines, count) = (list.pointer(), list.length());
    // SAFETY: as for every call here; `LentList` owns the lines behind its pointer, and none where it is null.
    let answer =
        unsafe { sys::las_cutting_list(file, file_length, sheet, sheet_length, lines, count) };
    Listed {
        number: answer.number,
        lines: answer.lines,
    }
}

pub fn release_by_list(
    file: &mut Lent,
    sheet: &mut Lent,
    out: &mut Lent,
    list: &mut LentList,
) -> Released {
    let (file, file_length) = (file.pointer(), file.length());
    let (sheet, sheet_length) = (sheet.pointer(), sheet.length());
    let (out, out_length) = (out.pointer(), out.length());
    let (lines, count) = (list.pointer(), list.length());
    // SAFETY: as above.
    super::released_answer(unsafe {
        sys::las_release_by_list(
            file,
            file_length,
            sheet,
            sheet_length,
            out,
            out_length,
            lines,
            count,
        )
    })
}

//! Cutting lists and releases by them, of a build.

use korbishaf::sys::{las_line, las_listed, las_released};

pub type CuttingList =
    unsafe extern "C" fn(*const u8, u64, *const u8, u64, *mut las_line, u64) -> las_listed;
pub type ReleaseByList = unsafe extern "C" fn(
    *const u8,
    u64,
    *const u8,
    u64,
    *mut u8,
    u64,
    *mut las_line,
    u64,
) -> las_released;

/// What lists the parts of a file that go out, and what releases by such a list, in a build.
#[derive(Clone, Copy)]
pub struct Lister {
    pub(super) cutting_list: CuttingList,
    pub(super) release_by_list: ReleaseByList,
}

impl Lister {
    pub fn cutting_list(self, file: &[u8], sheet: &[u8], list: &mut [las_line]) -> las_listed {
        // SAFETY: each pointer comes with its slice's length, and the borrows keep the list apart from the rest.
        unsafe {
            (self.cutting_list)(
                file.as_ptr(),
                file.len() as u64,
                sheet.as_ptr(),
                sheet.len() as u64,
                list.as_mut_ptr(),
                list.len() as u64,
            )
        }
    }

    pub fn release_by_list(
        self,
        file: &[u8],
        sheet: &[u8],
        out: &mut [u8],
        list: &mut [las_line],
    ) -> las_released {
        // SAFETY: as above, for the output too.
        unsafe {
            (self.release_by_list)(
                file.as_ptr(),
                file.len() as u64,
                sheet.as_ptr(),
                sheet.len() as u64,
                out.as_mut_ptr(),
                out.len() as u64,
                list.as_mut_ptr(),
                list.len() as u64,
            )
        }
    }
}

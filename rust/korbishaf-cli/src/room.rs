//! Room in memory for whole files, and beside them.

use crate::failure::Failure;
use crate::signals;
use std::alloc::{Layout, alloc_zeroed};
use std::ffi::{c_int, c_void};
use std::hint::black_box;
use std::thread;

unsafe extern "C" {
    fn madvise(at: *mut c_void, length: usize, advice: c_int) -> c_int;
    fn mallopt(parameter: c_int, value: c_int) -> c_int;
}

const MADV_HUGEPAGE: c_int = 14;
const MADV_POPULATE_WRITE: c_int = 23;
const M_ARENA_MAX: c_int = -8;

/// Where a page of memory may begin.
const PAGE: usize = 4096;

/// How many bytes are read or written at a time, and by how many the room for a file of unknown length grows.
pub const STEP: usize = 4 << 20;

/// From this length on a second thread is worth it.
pub const LARGE: usize = 16 << 20;

/// Has all threads share one reserve of memory. The system's C library would set 64 MiB aside for each otherwise, which
/// nothing uses, but which count where memory is limited.
pub fn share() {
    // SAFETY: this sets a number in the C library, before there is a second thread.
    unsafe { mallopt(M_ARENA_MAX, 1) };
}

/// How many bytes a command needs at most to look into a file: for the keys of a GeoKey directory and their texts, for
/// the records that they are in, and for what waits to be written.
const BESIDE: usize = 6 << 20;

/// Refuses where there is no room left beside a file of that name. It is asked for at once, since a list or a text that
/// there is no room for ends the program.
pub fn is_left_beside(name: &str) -> Result<(), Failure> {
    let mut room = Vec::<u8>::new();
    let asked = black_box(&mut room).try_reserve_exact(BESIDE);
    asked.map_err(|_| Failure::Io(format!("{name}: no memory is left beside it")))
}

/// So many zeros; none where there is no room for them. The system clears memory where it is first used, and large
/// pages make that several times faster.
pub fn zeros(length: usize) -> Option<Vec<u8>> {
    if length == 0 {
        return Some(Vec::new());
    }
    let layout = Layout::array::<u8>(length).ok()?;
    // SAFETY: the layout has at least one byte.
    let at = unsafe { alloc_zeroed(layout) };
    if at.is_null() {
        return None;
    }
    // SAFETY: the vector's own allocator has given that many bytes there, all of them zero.
    let mut room = unsafe { Vec::from_raw_parts(at, length, length) };
    let pages = Pages::of(&mut room);
    advise(pages.at, pages.length, MADV_HUGEPAGE);
    Some(room)
}

/// Does something with a room that is new, while a second thread has the system clear its memory: that is most of the
/// time of a first use.
pub fn prepared<T>(room: &mut [u8], action: impl FnOnce(&mut [u8]) -> T) -> T {
    let pages = Pages::of(room);
    thread::scope(|scope| {
        if room.len() >= LARGE {
            let prepare = move || pages.prepare();
            // nothing is lost but time where it can't be started
            let _ = signals::undisturbed(|| thread::Builder::new().spawn_scoped(scope, prepare));
        }
        action(room)
    })
}

/// The pages of a room: where they begin, and how many bytes they have.
struct Pages {
    at: usize,
    length: usize,
}

impl Pages {
    /// From the first page that begins in the room to the room's end.
    fn of(room: &mut [u8]) -> Self {
        let skipped = room.as_ptr().align_offset(PAGE).min(room.len());
        Pages {
            at: room.as_mut_ptr().addr() + skipped,
            length: room.len() - skipped,
        }
    }

    /// Has the system clear them, step by step. It changes nothing that was written there.
    fn prepare(self) {
        for done in (0..self.length).step_by(STEP) {
            let length = STEP.min(self.length - done);
            advise(self.at + done, length, MADV_POPULATE_WRITE);
        }
    }
}

/// Gives the system an advice about pages. An advice changes nothing that is in them, and no harm is done if it fails.
fn advise(at: usize, length: usize, advice: c_int) {
    // SAFETY: both advices that are given here leave all memory as it is for the program.
    unsafe { madvise(at as *mut c_void, length, advice) };
}

//! INT, TERM and HUP, which end the program, and the file that must not stay then.

use std::ffi::{CString, c_char, c_int};
use std::ptr::null_mut;
use std::sync::atomic::{AtomicBool, AtomicPtr, Ordering};

type Handler = usize;

/// Room for the system's set of signals, which has 1,024 bits.
type SignalSet = [u64; 16];

unsafe extern "C" {
    fn signal(number: c_int, handler: Handler) -> Handler;
    fn raise(number: c_int) -> c_int;
    fn unlink(path: *const c_char) -> c_int;
    fn write(file: c_int, bytes: *const u8, length: usize) -> isize;
    fn sigemptyset(set: *mut SignalSet) -> c_int;
    fn sigaddset(set: *mut SignalSet, number: c_int) -> c_int;
    fn pthread_sigmask(how: c_int, set: *const SignalSet, old: *mut SignalSet) -> c_int;
}

/// HUP, INT and TERM.
const ENDING: [c_int; 3] = [1, 2, 15];
/// A file has grown beyond the limit that is set for it.
const XFSZ: c_int = 25;
const SIG_DFL: Handler = 0;
const SIG_IGN: Handler = 1;
const SIG_BLOCK: c_int = 0;
const SIG_SETMASK: c_int = 2;

/// The path of the file to remove, or null.
static TO_REMOVE: AtomicPtr<c_char> = AtomicPtr::new(null_mut());

/// Whether a progress bar stands on standard error.
static HAS_BAR: AtomicBool = AtomicBool::new(false);

/// What clears a terminal's line.
pub const CLEAR: &str = "\r\x1B[K";

/// Has the signals remove the file at hand before they end the program. One that is ignored stays so, as under nohup. A
/// limit on the size of files is no signal any more, but an error of the call that writes.
pub fn watch() {
    // SAFETY: to ignore a signal calls nothing.
    unsafe { signal(XFSZ, SIG_IGN) };
    for number in ENDING {
        // SAFETY: the handler calls only what may be called in one.
        unsafe {
            if signal(number, remove_and_end as *const () as Handler) == SIG_IGN {
                signal(number, SIG_IGN);
            }
        }
    }
}

/// From now on the signals remove this file; none where it is `None`.
pub fn remove_on_end(path: Option<CString>) {
    let new = path.map_or(null_mut(), CString::into_raw);
    // A path that was there before is never freed: a signal might just be looking at it.
    TO_REMOVE.store(new, Ordering::SeqCst);
}

/// From now on the signals clear the terminal's line, or do not.
pub fn clear_on_end(bar: bool) {
    HAS_BAR.store(bar, Ordering::SeqCst);
}

/// Does something that these signals do not come in between of: they wait until it is done. A thread that is started in
/// it never gets them.
pub fn undisturbed<T>(action: impl FnOnce() -> T) -> T {
    let mut set: SignalSet = [0; 16];
    let mut old: SignalSet = [0; 16];
    // SAFETY: both sets are as large as the system's.
    unsafe {
        sigemptyset(&mut set);
        for number in ENDING {
            sigaddset(&mut set, number);
        }
        pthread_sigmask(SIG_BLOCK, &set, &mut old);
    }
    let done = action();
    // SAFETY: the set is the one that was there before.
    unsafe { pthread_sigmask(SIG_SETMASK, &old, null_mut()) };
    done
}

extern "C" fn remove_and_end(number: c_int) {
    let path = TO_REMOVE.load(Ordering::SeqCst);
    // SAFETY: the path is null or a string that is never freed; these four calls are allowed in a handler.
    unsafe {
        if HAS_BAR.load(Ordering::SeqCst) {
            write(2, CLEAR.as_ptr(), CLEAR.len());
        }
        if !path.is_null() {
            unlink(path);
        }
        signal(number, SIG_DFL);
        raise(number);
    }
}

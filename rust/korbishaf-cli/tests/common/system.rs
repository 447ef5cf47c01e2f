//! Calls of the system that Rust's own library does not have.

#![allow(dead_code, reason = "not every test uses everything")]

use std::ffi::{CStr, c_char, c_int};
use std::fs::File;
use std::os::fd::FromRawFd;
use std::process::Child;

unsafe extern "C" {
    fn kill(process: c_int, number: c_int) -> c_int;
    fn posix_openpt(flags: c_int) -> c_int;
    fn grantpt(terminal: c_int) -> c_int;
    fn unlockpt(terminal: c_int) -> c_int;
    fn ptsname_r(terminal: c_int, name: *mut c_char, length: usize) -> c_int;
}

pub const HUP: c_int = 1;
pub const INT: c_int = 2;
pub const KILL: c_int = 9;
pub const TERM: c_int = 15;
pub const CONT: c_int = 18;
pub const STOP: c_int = 19;

/// Sends a signal.
pub fn send(child: &Child, number: c_int) {
    // SAFETY: a signal to a process that was not waited for yet.
    assert_eq!(unsafe { kill(child.id() as c_int, number) }, 0);
}

const O_RDWR_NOCTTY: c_int = 0o402;

/// A terminal: the end that a person would look at, and the one that a program writes to. None where the machine gives
/// none, which is said.
pub fn terminal() -> Option<(File, File)> {
    // SAFETY: this opens a file.
    let opened = unsafe { posix_openpt(O_RDWR_NOCTTY) };
    if opened < 0 {
        eprintln!("left out, since this machine gives no terminal");
        return None;
    }
    let mut name: [c_char; 128] = [0; 128];
    // SAFETY: the terminal was opened just now; the name has room for 128 bytes and ends with 0.
    let (seen, path) = unsafe {
        let seen = File::from_raw_fd(opened);
        assert_eq!((grantpt(opened), unlockpt(opened)), (0, 0));
        assert_eq!(ptsname_r(opened, name.as_mut_ptr(), name.len()), 0);
        (
            seen,
            CStr::from_ptr(name.as_ptr()).to_str().unwrap().to_string(),
        )
    };
    let written = File::options().read(true).write(true).open(path).unwrap();
    Some((seen, written))
}

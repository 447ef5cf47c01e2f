//! `release_into WAY FILE SHEET OUTPUT` releases FILE under SHEET into OUTPUT, a file that is mapped into memory: what
//! a release has written when it is killed stands in that file. `tests/power_cut.rs` does that. WAY is `release`, or
//! `by-list` for the release that fills a list and writes by it.
//!
//! It prints a line when it is ready, waits for a byte, releases, and prints the release's number.

use std::ffi::{OsStr, OsString, c_int, c_void};
use std::fs::{self, File};
use std::io::{Error, Read, Result, Write, stdin, stdout};
use std::os::fd::AsRawFd;
use std::ptr::null_mut;
use std::slice;

use korbishaf::bytes::most_lines;
use korbishaf::sys::{self, las_line};

unsafe extern "C" {
    fn mmap(
        at: *mut c_void,
        length: usize,
        access: c_int,
        kind: c_int,
        file: c_int,
        offset: i64,
    ) -> *mut c_void;
}

const READ_AND_WRITE: c_int = 3;
const MAP_SHARED: c_int = 1;
/// What mmap gives where it fails.
const NO_PLACE: usize = usize::MAX;

const USAGE: &str = "usage: release_into release|by-list FILE SHEET OUTPUT";

/// In the list before it is filled. Not zero: the system then has to have given all of its memory.
const JUNK: las_line = las_line {
    place: u64::MAX,
    length: u64::MAX,
};

/// How to release, with what that takes.
enum Way {
    Release,
    ByList(Vec<las_line>),
}

fn main() -> Result<()> {
    let words: Vec<OsString> = std::env::args_os().skip(1).collect();
    let [way, file, sheet, output] = words.as_slice() else {
        return Err(Error::other(USAGE));
    };
    let (file, sheet) = (fs::read(file)?, fs::read(sheet)?);
    let mut way = Way::named(way, &file, &sheet)?;
    let out = map(&File::options().read(true).write(true).open(output)?)?;
    say("ready")?;
    stdin().read_exact(&mut [0])?;
    let number = match &mut way {
        Way::Release => release(&file, &sheet, out),
        Way::ByList(list) => release_by_list(&file, &sheet, out, list),
    };
    say(&number.to_string())
}

impl Way {
    /// The one of this name, ready for a release of the file.
    fn named(name: &OsStr, file: &[u8], sheet: &[u8]) -> Result<Self> {
        match name.to_str() {
            Some("release") => Ok(Self::Release),
            Some("by-list") => {
                let lines = most_lines(file, sheet).map_err(Error::other)?;
                Ok(Self::ByList(vec![JUNK; lines]))
            }
            _ => Err(Error::other(USAGE)),
        }
    }
}

fn say(line: &str) -> Result<()> {
    stdout().write_all(format!("{line}\n").as_bytes())
}

/// The bytes of the file itself, for as long as the program runs.
fn map(file: &File) -> Result<&'static mut [u8]> {
    let length = file.metadata()?.len() as usize;
    let from = file.as_raw_fd();
    // SAFETY: the system chooses the place.
    let at = unsafe { mmap(null_mut(), length, READ_AND_WRITE, MAP_SHARED, from, 0) };
    if at.addr() == NO_PLACE {
        return Err(Error::last_os_error());
    }
    // SAFETY: the place has that many bytes, and who started the program leaves the file alone until it has ended.
    Ok(unsafe { slice::from_raw_parts_mut(at.cast(), length) })
}

/// The C call itself, with nothing between it and the mapping.
fn release(file: &[u8], sheet: &[u8], out: &mut [u8]) -> u64 {
    // SAFETY: each pointer comes with its slice's length, and the borrows keep the output apart from the rest.
    let answer = unsafe {
        sys::las_release(
            file.as_ptr(),
            file.len() as u64,
            sheet.as_ptr(),
            sheet.len() as u64,
            out.as_mut_ptr(),
            out.len() as u64,
        )
    };
    answer.number
}

/// As above, for the second way.
fn release_by_list(file: &[u8], sheet: &[u8], out: &mut [u8], list: &mut [las_line]) -> u64 {
    // SAFETY: as above, for the list too.
    let answer = unsafe {
        sys::las_release_by_list(
            file.as_ptr(),
            file.len() as u64,
            sheet.as_ptr(),
            sheet.len() as u64,
            out.as_mut_ptr(),
            out.len() as u64,
            list.as_mut_ptr(),
            list.len() as u64,
        )
    };
    answer.number
}

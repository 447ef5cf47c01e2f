//! Standard output and standard error.

use crate::failure::Failure;
use crate::progress::Progress;
use crate::room::STEP;
use std::ffi::c_int;
use std::fs::File;
use std::io::{self, BufWriter, Error, Write, stderr, stdout};
use std::os::fd::AsFd;
use std::os::unix::fs::MetadataExt;
use std::sync::atomic::{AtomicBool, Ordering};

unsafe extern "C" {
    fn fcntl(file: c_int, command: c_int, ...) -> c_int;
}

const F_GETFD: c_int = 1;

/// Whether standard input and standard output were closed when the program was started.
static WERE_CLOSED: [AtomicBool; 2] = [AtomicBool::new(false), AtomicBool::new(false)];

/// How many bytes of what is written piece by piece are kept until there are enough of them.
const BUFFER: usize = 64 << 10;

/// Runs before Rust's own start, which opens `/dev/null` in place of what is closed: a line would then be lost, or a
/// sheet be empty, and nobody would know.
#[used]
#[unsafe(link_section = ".init_array")]
static LOOK: extern "C" fn() = look;

extern "C" fn look() {
    for (file, closed) in (0..).zip(&WERE_CLOSED) {
        // SAFETY: this asks for a flag of a file, open or not, and touches no memory.
        let flags = unsafe { fcntl(file, F_GETFD) };
        closed.store(flags < 0, Ordering::Relaxed);
    }
}

/// Fails where standard input is closed.
pub fn has_input() -> Result<(), Error> {
    match WERE_CLOSED[0].load(Ordering::Relaxed) {
        true => Err(Error::other("it is closed")),
        false => Ok(()),
    }
}

/// Refuses where standard output is closed, before anything is done whose outcome could not be said.
pub fn is_open() -> Result<(), Failure> {
    match WERE_CLOSED[1].load(Ordering::Relaxed) {
        true => Err(Failure::Io("standard output: it is closed".into())),
        false => Ok(()),
    }
}

/// Whether standard output goes to that file, by its device and its number there.
pub fn output_is(identity: (u64, u64)) -> bool {
    let file = stdout().as_fd().try_clone_to_owned().map(File::from);
    let known = file.and_then(|file| file.metadata());
    known.is_ok_and(|known| (known.dev(), known.ino()) == identity)
}

/// Writes to standard output, all of it.
pub fn print(bytes: &[u8]) -> Result<(), Failure> {
    is_open()?;
    let mut out = stdout().lock();
    out.write_all(bytes)
        .and_then(|()| out.flush())
        .map_err(|error| Failure::io("standard output", &error))
}

/// Writes to standard output piece by piece, so that what is printed need not be in memory.
pub fn stream(write: impl FnOnce(&mut dyn Write) -> io::Result<()>) -> Result<(), Failure> {
    is_open()?;
    let mut out = BufWriter::with_capacity(BUFFER, stdout().lock());
    write(&mut out)
        .and_then(|()| out.flush())
        .map_err(|error| Failure::io("standard output", &error))
}

/// Writes a whole file to standard output, step by step.
pub fn print_all(bytes: &[u8], progress: &Progress) -> Result<(), Failure> {
    progress.begin("writing", Some(bytes.len() as u64));
    for step in bytes.chunks(STEP) {
        print(step)?;
        progress.add(step.len() as u64);
    }
    Ok(())
}

/// Says something on standard error; nothing where the words are empty. Where that fails there is nobody to tell.
pub fn say(words: &str) {
    if !words.is_empty() {
        let _ = stderr().write_all(format!("{words}\n").as_bytes());
    }
}

//! Releases into memory.

use crate::failure::Failure;
use crate::progress::Progress;
use crate::room;
use korbishaf::{Error, Released, bytes};
use std::time::{Duration, Instant};

/// How many bytes of a file are counted in a nanosecond, about.
const COUNTED: u64 = 10;

/// How many times longer than to count the points it takes to release them, about, into memory that is new.
const LONGER: u32 = 10;

/// Why there is no released file.
pub enum Stopped {
    /// File or sheet do not pass.
    Refused(Error),
    /// There is no room for it.
    Failed(Failure),
}

impl From<Error> for Stopped {
    fn from(refused: Error) -> Self {
        Stopped::Refused(refused)
    }
}

/// The released file: its length is asked for first, so that it is made once and takes no more memory than it needs.
pub fn release(
    file: &[u8],
    sheet: &[u8],
    progress: &Progress,
) -> Result<(Vec<u8>, Released), Stopped> {
    let began = Instant::now();
    let needed = needed(file, sheet, progress)?;
    let expected = began.elapsed().max(Duration::from_millis(1)) * LONGER;
    let too_large = || {
        let words = format!("the released file of {needed} bytes does not fit into memory");
        Stopped::Failed(Failure::Io(words))
    };
    let mut out = room::zeros(needed).ok_or_else(too_large)?;
    progress.begin_expecting("releasing", file.len() as u64, expected);
    let released = room::prepared(&mut out, |out| bytes::release(file, sheet, out))?;
    Ok((out, released))
}

/// The length that the released file has, which an output without room is too short for.
pub fn needed(file: &[u8], sheet: &[u8], progress: &Progress) -> Result<usize, Error> {
    begin_counting(file, progress);
    match bytes::release(file, sheet, &mut []) {
        Ok(released) => Ok(released.length),
        Err(refused) => refused.needed().ok_or(refused),
    }
}

/// Begins the step that counts the points of a file which go out.
pub fn begin_counting(file: &[u8], progress: &Progress) {
    let length = file.len() as u64;
    progress.begin_expecting("counting", length, Duration::from_nanos(length / COUNTED));
}

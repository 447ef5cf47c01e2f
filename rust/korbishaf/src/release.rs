//! The release.

use crate::bytes;
use crate::error::Error;
use crate::sheet::Sheet;

/// What was released.
#[derive(Clone, Copy, Debug, PartialEq, Eq, Hash)]
pub struct Released {
    /// The released file's length, also where the output is longer.
    pub length: usize,
    /// The number of kept points.
    pub points: u64,
    /// The number of kept variable length records.
    pub records: u64,
}

/// Writes what a sheet keeps of a file to the output, as a file of its own with zeros behind it. Withheld points
/// [never go out](crate#classes-and-flags).
///
/// An output as long as the file is never too short.
///
/// # Errors
///
/// 1 to 10 where the file does not pass, then 30 where the output is shorter than the released file, with the needed
/// length in [`Error::needed`]. The output is then unchanged.
pub fn release(file: &[u8], sheet: &Sheet, out: &mut [u8]) -> Result<Released, Error> {
    bytes::release(file, sheet.as_bytes(), out)
}

/// The released file by itself: what a sheet keeps of a file.
///
/// It asks for the needed length first, with an empty output.
///
/// File and sheet cannot be swapped:
///
/// ```compile_fail,E0308
/// # fn swapped(file: Vec<u8>, sheet: korbishaf::Sheet) {
/// let sample = korbishaf::release_to_vec(&sheet, &file);
/// # }
/// ```
///
/// # Errors
///
/// 1 to 10 where the file does not pass.
pub fn release_to_vec(file: &[u8], sheet: &Sheet) -> Result<Vec<u8>, Error> {
    bytes::release_to_vec(file, sheet.as_bytes())
}

//! Korbishaf for Rust: readers of LAS 1.2 files (point formats 0 to 3), and releases of what a keep sheet keeps
//! of them. [`cutting_list`] says which parts of a file a release takes, for whoever has the file. [`mend`] sets a
//! header right that lies about its points: their number, points by return and bounds. [`geokey`] looks up one of the
//! keys that say where on Earth a scan is, and [`geokey_by_halving`] does so in a long directory of rising keys.
//!
//! The functions here are thin, safe wrappers of those in Korbishaf's static library, which is proved to do what its
//! definitions say. Any bytes may be passed. What can't be answered is refused with an [`Error`], which has a
//! number and a kind and says why in words.
//!
//! A keep sheet is a [`Sheet`], which has passed the library's check: made of lines, of bytes or of a text. [`bytes`]
//! has the functions that take a sheet over plain bytes instead, and [`sys`] the library's functions themselves. What
//! this crate does by itself, and is tested but not proved: [`records`] reads each record out of a file that the
//! library has checked, and [`Sheet`] goes from lines and text to bytes and back.
//!
//! The library, `libcapi.a` or `libkorbishaf.a`, is linked from the folder that the environment variable
//! `KORBISHAF_LIB_DIR` names. Where that is not set, it is linked from the repository's `target/staticlib`, where
//! `tools/staticlib` and `./install` put it; by a crate that `./install` has put to
//! `PREFIX/share/korbishaf/rust/korbishaf`, from `PREFIX/lib`.
//!
//! # Texts
//!
//! User IDs, descriptions and the header's texts stand in fields of a fixed width. A text is the field's *cut*: its
//! bytes before the first zero byte, or all of them, without the spaces at their end, which a maker may fill fields
//! with. That holds in files, in sheets and for a user ID that is asked about:
//!
//! ```
//! use korbishaf::{Sheet, record_kept};
//!
//! let sheet = Sheet::from_text("record yard 7")?;
//! assert!(record_kept(&sheet, b"yard            ", 7));
//! assert!(record_kept(&sheet, b"yard  \0 junk", 7));
//! assert!(!record_kept(&sheet, b" yard", 7));
//! assert_eq!(Sheet::from_text("record \"yard \" 7")?, sheet);
//! # Ok::<(), korbishaf::TextError>(())
//! ```
//!
//! # Classes and flags
//!
//! In the point formats 0 to 3 the classification byte of a point holds its class, 0 to 31, in the lower five bits, and
//! three flags above these: synthetic, key point and withheld. A [`Point`] has the four apart. A sheet names classes
//! alone: a line for class 2 keeps synthetic points and key points of that class too, and a line above 31 keeps none.
//! Withheld points are never released, whatever the sheet says.
//!
//! # Boxes
//!
//! A sheet may have boxes beside its classes. Where it has any, a point is released only if its class is kept, it is
//! not withheld, and it lies in one of the boxes, edges included. A sheet with boxes and no line for classes keeps no
//! point. What records it keeps does not depend on boxes.
//!
//! The bounds of a box are stored values, the whole numbers that a file has for X, Y and Z, as in a [`Point`], and no
//! coordinates. A coordinate is stored value times scale plus offset, by the file's header: a box that is right for one
//! file may be wrong for another, with other scales and offsets.
//!
//! ```
//! use korbishaf::{Line, Sheet, coordinate};
//!
//! let sheet = Sheet::from_text("class ground\nbox X -1500..2000 Y 0..4000 # at any Z")?;
//! let anywhere_in_z = Line::bounding_box([-1500, 0, i32::MIN], [2000, 4000, i32::MAX]);
//! assert!(sheet.lines().eq([Line::class(2), anywhere_in_z]));
//! // with the scale 0.01 and the offset 500 that is from 485 to 520 in X
//! assert_eq!([-1500, 2000].map(|stored| coordinate(stored, 0.01, 500.0)), [485.0, 520.0]);
//! # Ok::<(), korbishaf::TextError>(())
//! ```
//!
//! # Example
//!
//! A file of three points, made here in memory, and a sheet that keeps one of them:
//!
//! ```
//! let mut file = vec![0; 227];
//! file[..4].copy_from_slice(b"LASF");
//! file[24..26].copy_from_slice(&[1, 2]); // version 1.2
//! file[94..96].copy_from_slice(&227u16.to_le_bytes()); // header size
//! file[96..100].copy_from_slice(&227u32.to_le_bytes()); // offset to points
//! file[104] = 0; // point format
//! file[105..107].copy_from_slice(&20u16.to_le_bytes()); // record length
//! file[107..111].copy_from_slice(&3u32.to_le_bytes()); // number of points
//! for scale in [131, 139, 147] {
//!     file[scale..scale + 8].copy_from_slice(&0.5f64.to_le_bytes());
//! }
//! for (x, classification, withheld) in [(-3, 2, false), (40, 6, false), (7, 2, true)] {
//!     let point = korbishaf::Point { x, classification, withheld, ..Default::default() };
//!     let mut record = [0; 20];
//!     korbishaf::encode(0, 20, &point, &mut record)?;
//!     file.extend(record);
//! }
//!
//! let sheet = korbishaf::Sheet::from_text("class 2-5 # ground and vegetation")?;
//! let sample = korbishaf::release_to_vec(&file, &sheet)?;
//! assert_eq!(sample.len(), 247);
//!
//! let header = korbishaf::read_header(&sample)?;
//! assert_eq!(header.point_count, 1);
//! assert_eq!(header.max[0], -1.5);
//! let kept: Vec<_> = korbishaf::points(&sample)?.map(|found| found.point).collect();
//! assert_eq!(kept, [korbishaf::Point { x: -3, classification: 2, ..Default::default() }]);
//! assert_eq!(header.coordinates(&kept[0]), [-1.5, 0.0, 0.0]);
//! # Ok::<(), Box<dyn std::error::Error>>(())
//! ```

#![warn(missing_docs)]

pub mod bytes;
mod cutting_list;
mod error;
mod geokeys;
mod header;
mod mend;
mod points;
mod records;
mod release;
mod sheet;
pub mod sys;
mod text_field;

pub use cutting_list::{CuttingLine, cutting_list, cutting_list_into, most_lines, release_by_list};
pub use error::{Error, ErrorKind, refusal_words};
pub use geokeys::{GeoKeyRead, GeoKeyValue, geokey, geokey_by_halving};
pub use header::{Guid, Header, check_file, read_header};
pub use mend::{Mended, mend};
pub use points::{PlacedPoint, Point, Points, coordinate, decode, encode, point_at, points};
pub use records::{Record, Records, Step, records, step};
pub use release::{Released, release, release_to_vec};
pub use sheet::{
    ClassLine, Line, Lines, LongUserId, Sheet, SheetError, TextError, UserId, class_kept,
    class_name, class_number, class_test, record_kept,
};

use text_field::cut;

/// The number of the last change request that is in the library: 0 for the base, 1 with [`mend`], 2 where texts are cut
/// before the spaces at their end, 3 where a class has no [flags](crate#classes-and-flags) in it, 4 with
/// [`class_test`], 5 with [`cutting_list`] and [`release_by_list`], 6 with [`geokey_by_halving`], 7 where a sheet may
/// have [boxes](crate#boxes).
#[must_use]
pub fn level() -> u64 {
    sys::las_level()
}

/// The part of a file at a place and of a length that the library answered for that same file, and so in it.
fn part(file: &[u8], place: u64, length: u64) -> &[u8] {
    &file[narrow(place)..][..narrow(length)]
}

/// A number that the library answered, in the type of the field that it was read from.
fn narrow<T: TryFrom<u64>>(number: u64) -> T {
    T::try_from(number)
        .ok()
        .expect("an answered number fits its field")
}

//! An independent reader, lister, releaser and mender of LAS 1.2.
//!
//! Written from the LAS 1.2 specification, the GeoKey pages and the requirements
//! (docs/SPECIFICATION.md) alone. It shares nothing with the proved crates, so
//! that where both agree, their definitions are LAS as the world reads it.
//!
//! * [`LasFile`] is a file that passes the file checks; [`check_file`] only asks.
//! * [`Sheet`] is a keep sheet that passes, with lines for classes, records and boxes; [`check_sheet`] only asks.
//! * [`class_test()`] looks for the first line of a sheet that holds a class.
//! * [`release()`] writes what a sheet leaves of a file.
//! * [`cutting_list()`] lists which parts of a file a release takes; [`release_by_list()`] releases from such a list.
//! * [`find_by_halving()`] finds a GeoKey by halving its directory, beside [`LasFile::geokey`], and counts its reads.
//! * [`mend()`] sets right the counts and bounds of a header that lies.
//! * [`Point`] is one point's fields, with [`decode`] and [`encode`].
//!
//! A [`Refusal`] says why something was not done and has the specification's number.

mod bounding_box;
mod bytes;
mod class_test;
mod cutting;
mod file;
mod format;
mod geokey;
mod geokey_halving;
mod header;
mod mend;
mod point;
mod refusal;
mod release;
mod release_by_list;
mod scaling;
mod sheet;
mod tally;
mod vlr;

#[cfg(test)]
mod sample;

pub use bytes::cut;
pub use class_test::{ClassLine, class_test};
pub use cutting::{Line, cutting_list};
pub use file::{LasFile, check_file, read_header};
pub use format::PointFormat;
pub use geokey::GeoValue;
pub use geokey_halving::{HalvingLookup, find_by_halving};
pub use header::{Header, ProjectId};
pub use mend::mend;
pub use point::{Point, decode, encode};
pub use refusal::Refusal;
pub use release::{Released, release};
pub use release_by_list::release_by_list;
pub use scaling::{Bounds, Scaling, coordinate};
pub use sheet::{Sheet, check_sheet, class_kept, record_kept};
pub use vlr::{Vlr, Vlrs};

//! What is in a file that passes. Text and JSON are made of the same facts.

pub mod boxes;
pub mod class;
pub mod geokeys;
pub mod group;
pub mod header;
pub mod json;
mod key_names;
pub mod parts;
mod projection;
pub mod records;
pub mod stated;
pub mod tally;
pub mod text;

use crate::progress::Progress;
use boxes::Boxes;
use geokeys::GeoKeys;
use korbishaf::{Error, Header, Records};
use parts::Parts;
use stated::{Bound, Compared};
use tally::Tally;

/// The facts. Beside the file's bytes they take room for the keys of one GeoKey directory, however many points and
/// records there are.
#[derive(Debug)]
pub struct Facts<'a> {
    /// The file's length.
    pub length: usize,
    /// The header, as the file states it.
    pub header: Header<'a>,
    /// What there is beside header, records and points.
    pub parts: Parts,
    /// The counts and the extremes of the points.
    pub tally: Tally,
    /// The keys of the GeoKey directory.
    pub geokeys: GeoKeys,
    records: Records<'a>,
}

impl<'a> Facts<'a> {
    /// The facts of a file under boxes, in one pass over its points; 1 to 10 where it does not pass.
    pub fn of(file: &'a [u8], boxes: &Boxes, progress: &Progress) -> Result<Self, Error> {
        let header = korbishaf::read_header(file)?;
        let records = korbishaf::records(file)?;
        let points_length = u64::from(header.point_count) * u64::from(header.record_length);
        progress.begin("counting", Some(points_length));
        let tally = Tally::of(korbishaf::points(file)?, boxes, |points| {
            progress.advance(points * u64::from(header.record_length));
        });
        Ok(Facts {
            length: file.len(),
            parts: Parts::of(file, &header, records.clone()),
            geokeys: GeoKeys::of(file, &records),
            header,
            tally,
            records,
        })
    }

    /// The records, in order.
    pub fn records(&self) -> Records<'a> {
        self.records.clone()
    }

    /// The stated and the actual numbers of points by return, 1 to 5.
    pub fn returns(&self) -> [Compared<u64>; 5] {
        stated::returns(&self.header, &self.tally)
    }

    /// The stated and the actual bounds, in the order that the header has them in.
    pub fn bounds(&self) -> [Bound; 6] {
        stated::bounds(&self.header, &self.tally)
    }
}

//! A whole file that passes the file checks.

use std::slice::ChunksExact;

use crate::geokey::{self, GeoValue};
use crate::header::Header;
use crate::point::Point;
use crate::refusal::Refusal;
use crate::vlr::{Vlr, Vlrs};

/// A file that passes the checks 1 to 10, or would with a number of points that is cut to what fits.
#[derive(Debug, Clone, Copy)]
pub struct LasFile<'a> {
    bytes: &'a [u8],
    header: Header<'a>,
}

impl<'a> LasFile<'a> {
    /// Makes the file checks in the specification's order.
    pub fn open(bytes: &'a [u8]) -> Result<Self, Refusal> {
        let file = Self::with_header(bytes)?;
        file.check_records()?;
        file.check_points()?;
        file.check_scaling()?;
        Ok(file)
    }

    /// Makes the file checks but 9: a number of points that is too large counts as that of the whole records that fit.
    pub(crate) fn open_cut(bytes: &'a [u8]) -> Result<Self, Refusal> {
        let mut file = Self::with_header(bytes)?;
        file.check_records()?;
        file.cut_points();
        file.check_scaling()?;
        Ok(file)
    }

    /// The checks 1 to 7.
    fn with_header(bytes: &'a [u8]) -> Result<Self, Refusal> {
        let header = Header::read(bytes)?;
        Ok(Self { bytes, header })
    }

    /// The check 8.
    fn check_records(&self) -> Result<(), Refusal> {
        if self.vlrs().all_fit() {
            Ok(())
        } else {
            Err(Refusal::RecordPastPoints)
        }
    }

    /// The check 9.
    fn check_points(&self) -> Result<(), Refusal> {
        if self.points_end() > self.bytes.len() as u64 {
            return Err(Refusal::PointsPastEnd);
        }
        Ok(())
    }

    /// The check 10.
    fn check_scaling(&self) -> Result<(), Refusal> {
        if self.header.scaling.in_range() {
            Ok(())
        } else {
            Err(Refusal::BadScaling)
        }
    }

    fn cut_points(&mut self) {
        let room = self.bytes.len() - self.header.point_offset as usize;
        let fitting = room / usize::from(self.header.record_length);
        self.header.point_count = u64::from(self.header.point_count).min(fitting as u64) as u32;
    }

    /// The whole file.
    pub(crate) fn bytes(&self) -> &'a [u8] {
        self.bytes
    }

    /// The fields of the header.
    pub fn header(&self) -> &Header<'a> {
        &self.header
    }

    /// The variable length records in order.
    pub fn vlrs(&self) -> Vlrs<'a> {
        Vlrs::new(
            self.before_points(),
            usize::from(self.header.header_size),
            self.header.record_count,
        )
    }

    /// One step of the walk: the record at `position` for the `index`-th record.
    pub fn vlr_at(&self, index: u64, position: u64) -> Result<Vlr<'a>, Refusal> {
        let counted = index < u64::from(self.header.record_count);
        let after_header = position >= u64::from(self.header.header_size);
        usize::try_from(position)
            .ok()
            .filter(|_| counted && after_header)
            .and_then(|place| Vlr::read(self.before_points(), place))
            .ok_or(Refusal::NoSuchRecord)
    }

    /// The bytes of each point in order, extra bytes included.
    pub fn points(&self) -> ChunksExact<'a, u8> {
        let start = self.header.point_offset as usize;
        let end = self.points_end() as usize;
        self.bytes[start..end].chunks_exact(usize::from(self.header.record_length))
    }

    /// The place and the fields of one point.
    pub fn point_at(&self, index: u64) -> Result<(usize, Point), Refusal> {
        let record = usize::try_from(index)
            .ok()
            .and_then(|index| self.points().nth(index))
            .ok_or(Refusal::NoSuchPoint)?;
        let place =
            u64::from(self.header.point_offset) + index * u64::from(self.header.record_length);
        Ok((place as usize, Point::read(self.header.format, record)))
    }

    /// The value of a GeoKey.
    pub fn geokey(&self, key: u16) -> Result<GeoValue, Refusal> {
        geokey::find(&self.vlrs(), key)
    }

    fn before_points(&self) -> &'a [u8] {
        &self.bytes[..self.header.point_offset as usize]
    }

    /// Where the points end by the header; it does not wrap.
    fn points_end(&self) -> u64 {
        u64::from(self.header.point_offset)
            + u64::from(self.header.point_count) * u64::from(self.header.record_length)
    }
}

/// Whether the file passes the checks 1 to 10.
pub fn check_file(bytes: &[u8]) -> Result<(), Refusal> {
    LasFile::open(bytes).map(drop)
}

/// The header's fields, if the file passes.
pub fn read_header(bytes: &[u8]) -> Result<Header<'_>, Refusal> {
    LasFile::open(bytes).map(|file| file.header)
}

#[cfg(test)]
mod tests {
    use super::*;
    use crate::sample;

    #[test]
    fn p9s_file_passes_and_reads() {
        let bytes = sample::p9_file();
        let file = LasFile::open(&bytes).unwrap();
        assert_eq!(file.header().point_offset, 291);
        assert_eq!(
            file.vlrs().map(|vlr| vlr.payload.len()).collect::<Vec<_>>(),
            [10]
        );
        assert_eq!(file.points().len(), 2);
        assert_eq!(file.point_at(1).unwrap().0, 319);
        assert_eq!(file.point_at(2), Err(Refusal::NoSuchPoint));
        assert_eq!(file.point_at(u64::MAX), Err(Refusal::NoSuchPoint));
    }

    #[test]
    fn one_byte_less_loses_a_point() {
        let bytes = sample::p9_file();
        assert_eq!(check_file(&bytes[..346]), Err(Refusal::PointsPastEnd));
    }

    #[test]
    fn a_cut_file_has_the_points_that_fit_and_no_more_than_it_states() {
        let points = |bytes: &[u8]| LasFile::open_cut(bytes).map(|file| file.points().len());
        let mut bytes = sample::p9_file();
        assert_eq!(points(&bytes), Ok(2));
        assert_eq!(points(&bytes[..346]), Ok(1));
        assert_eq!(points(&bytes[..291]), Ok(0));
        bytes.extend([0; 28]);
        assert_eq!(points(&bytes), Ok(2));
        bytes[107..111].fill(0xFF);
        assert_eq!(points(&bytes), Ok(3));
    }

    #[test]
    fn a_step_needs_a_counted_index_and_a_place_where_a_record_fits() {
        let bytes = sample::p9_file();
        let file = LasFile::open(&bytes).unwrap();
        assert_eq!(file.vlr_at(0, 227).unwrap().end(), 291);
        assert_eq!(file.vlr_at(1, 227), Err(Refusal::NoSuchRecord));
        assert_eq!(file.vlr_at(0, 226), Err(Refusal::NoSuchRecord));
        assert_eq!(file.vlr_at(0, 291), Err(Refusal::NoSuchRecord));
        assert_eq!(file.vlr_at(0, u64::MAX), Err(Refusal::NoSuchRecord));
    }
}

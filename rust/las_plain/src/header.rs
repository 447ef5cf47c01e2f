//! The public header block: read with its own checks, and written.

use crate::bytes::{cut, f64_at, put, u16_at, u32_at};
use crate::format::PointFormat;
use crate::refusal::Refusal;
use crate::scaling::{Bounds, Scaling};
use crate::tally::Tally;

/// The size of a header without extra bytes.
pub const HEADER_SIZE: u16 = 227;

/// The bytes of a header without extra bytes.
pub type Block = [u8; HEADER_SIZE as usize];

/// The fields of a public header block.
#[derive(Debug, Clone, Copy, PartialEq)]
pub struct Header<'a> {
    pub file_source_id: u16,
    pub global_encoding: u16,
    pub project_id: ProjectId,
    /// The system identifier's meaning, without its padding.
    pub system_identifier: &'a [u8],
    /// The generating software's meaning, without its padding.
    pub generating_software: &'a [u8],
    pub creation_day: u16,
    pub creation_year: u16,
    pub header_size: u16,
    pub point_offset: u32,
    pub record_count: u32,
    pub format: PointFormat,
    pub record_length: u16,
    pub point_count: u32,
    pub points_by_return: [u32; 5],
    pub scaling: Scaling,
    pub bounds: Bounds,
}

/// The four parts of the project GUID.
#[derive(Debug, Clone, Copy, PartialEq, Eq)]
pub struct ProjectId {
    pub data1: u32,
    pub data2: u16,
    pub data3: u16,
    pub data4: [u8; 8],
}

impl<'a> Header<'a> {
    /// Version major and minor of every header here.
    pub const VERSION: (u8, u8) = (1, 2);

    /// Reads the header of a whole file and makes the checks 1 to 7.
    pub(crate) fn read(file: &'a [u8]) -> Result<Self, Refusal> {
        let block: &Block = file.first_chunk().ok_or(Refusal::FileTooSmall)?;
        if !block.starts_with(b"LASF") {
            return Err(Refusal::NotLas);
        }
        if (block[24], block[25]) != Self::VERSION {
            return Err(Refusal::WrongVersion);
        }
        let header_size = u16_at(block, 94);
        if header_size < HEADER_SIZE || usize::from(header_size) > file.len() {
            return Err(Refusal::BadHeaderSize);
        }
        let format = PointFormat::from_id(block[104]).ok_or(Refusal::UnknownFormat)?;
        if usize::from(u16_at(block, 105)) < format.size() {
            return Err(Refusal::RecordTooShort);
        }
        let point_offset = u32_at(block, 96);
        if point_offset < u32::from(header_size) || u64::from(point_offset) > file.len() as u64 {
            return Err(Refusal::BadPointOffset);
        }
        Ok(Self::fields(block, format))
    }

    fn fields(block: &'a Block, format: PointFormat) -> Self {
        Self {
            file_source_id: u16_at(block, 4),
            global_encoding: u16_at(block, 6),
            project_id: ProjectId::read(block),
            system_identifier: cut(&block[26..58]),
            generating_software: cut(&block[58..90]),
            creation_day: u16_at(block, 90),
            creation_year: u16_at(block, 92),
            header_size: u16_at(block, 94),
            point_offset: u32_at(block, 96),
            record_count: u32_at(block, 100),
            format,
            record_length: u16_at(block, 105),
            point_count: u32_at(block, 107),
            points_by_return: std::array::from_fn(|bin| u32_at(block, 111 + 4 * bin)),
            scaling: Scaling {
                scale: std::array::from_fn(|axis| f64_at(block, 131 + 8 * axis)),
                offset: std::array::from_fn(|axis| f64_at(block, 155 + 8 * axis)),
            },
            bounds: Bounds {
                max: std::array::from_fn(|axis| f64_at(block, 179 + 16 * axis)),
                min: std::array::from_fn(|axis| f64_at(block, 187 + 16 * axis)),
            },
        }
    }

    /// Writes the header over a block, texts padded with zeros.
    pub(crate) fn write(&self, block: &mut Block) {
        block.fill(0);
        put(block, 0, b"LASF");
        put(block, 4, &self.file_source_id.to_le_bytes());
        put(block, 6, &self.global_encoding.to_le_bytes());
        self.project_id.write(block);
        put(block, 24, &[Self::VERSION.0, Self::VERSION.1]);
        put(block, 26, self.system_identifier);
        put(block, 58, self.generating_software);
        put(block, 90, &self.creation_day.to_le_bytes());
        put(block, 92, &self.creation_year.to_le_bytes());
        put(block, 94, &self.header_size.to_le_bytes());
        put(block, 96, &self.point_offset.to_le_bytes());
        put(block, 100, &self.record_count.to_le_bytes());
        put(block, 104, &[self.format.id()]);
        put(block, 105, &self.record_length.to_le_bytes());
        for axis in 0..3 {
            put(
                block,
                131 + 8 * axis,
                &self.scaling.scale[axis].to_le_bytes(),
            );
            put(
                block,
                155 + 8 * axis,
                &self.scaling.offset[axis].to_le_bytes(),
            );
        }
        self.write_tallied(block);
    }

    /// The same header with the counts and bounds of these points.
    pub(crate) fn tallied(self, tally: &Tally) -> Self {
        Self {
            point_count: tally.points(),
            points_by_return: tally.points_by_return(),
            bounds: tally.bounds(&self.scaling),
            ..self
        }
    }

    /// Writes only what follows from the points: their number, the five bins, the six bounds.
    pub(crate) fn write_tallied(&self, block: &mut Block) {
        put(block, 107, &self.point_count.to_le_bytes());
        for (bin, count) in self.points_by_return.iter().enumerate() {
            put(block, 111 + 4 * bin, &count.to_le_bytes());
        }
        for axis in 0..3 {
            put(block, 179 + 16 * axis, &self.bounds.max[axis].to_le_bytes());
            put(block, 187 + 16 * axis, &self.bounds.min[axis].to_le_bytes());
        }
    }
}

/// The fields of [`Header::write_tallied`], twelve of them in the order of the header.
pub(crate) fn tallied_fields(block: &Block) -> impl Iterator<Item = &[u8]> {
    let counts = block[107..131].chunks_exact(4);
    counts.chain(block[179..227].chunks_exact(8))
}

impl ProjectId {
    fn read(block: &[u8]) -> Self {
        Self {
            data1: u32_at(block, 8),
            data2: u16_at(block, 12),
            data3: u16_at(block, 14),
            data4: std::array::from_fn(|index| block[16 + index]),
        }
    }

    fn write(&self, block: &mut [u8]) {
        put(block, 8, &self.data1.to_le_bytes());
        put(block, 12, &self.data2.to_le_bytes());
        put(block, 14, &self.data3.to_le_bytes());
        put(block, 16, &self.data4);
    }
}

#[cfg(test)]
mod tests {
    use super::*;
    use crate::sample;

    #[test]
    fn p1_226_bytes_are_too_few() {
        assert_eq!(Header::read(&[0; 226]), Err(Refusal::FileTooSmall));
    }

    #[test]
    fn p2_227_zero_bytes_are_not_las() {
        assert_eq!(Header::read(&[0; 227]), Err(Refusal::NotLas));
    }

    #[test]
    fn a_written_header_reads_back() {
        let file = sample::p9_file();
        let header = Header::read(&file).unwrap();
        let mut long = vec![0xAA; file.len()];
        header.write(long.first_chunk_mut().unwrap());
        assert_eq!(Header::read(&long), Ok(header));
    }

    #[test]
    fn texts_padded_with_spaces_read_as_those_padded_with_zeros() {
        let zeros = sample::p9_file();
        let mut spaces = zeros.clone();
        spaces[26 + 5..58].fill(b' ');
        spaces[58 + 7..90].fill(b' ');
        assert_eq!(Header::read(&spaces), Header::read(&zeros));
        assert_eq!(Header::read(&spaces).unwrap().system_identifier, b"ALS50");
    }

    #[test]
    fn max_stands_before_min() {
        let file = sample::p9_file();
        let mut header = Header::read(&file).unwrap();
        header.bounds.max = [1.0, 2.0, 3.0];
        header.bounds.min = [-1.0, -2.0, -3.0];
        let mut block = [0; 227];
        header.write(&mut block);
        let written: Vec<f64> = (0..6).map(|i| f64_at(&block, 179 + 8 * i)).collect();
        assert_eq!(written, [1.0, -1.0, 2.0, -2.0, 3.0, -3.0]);
    }
}

//! What the lines of a cutting list stand for.

use crate::layout::RECORD_HEADER;
use korbishaf::{CuttingLine, Error, Record, Records, read_header};
use std::iter;

/// What a line of the list is about: a part of a file that goes out, or with runs several points side by side.
pub struct Part<'a> {
    /// The number of bytes before it.
    pub place: u64,
    /// The number of its bytes.
    pub length: u64,
    /// What it is.
    pub what: What<'a>,
}

/// What a part is. Numbers count from 1, as things stand in the file.
pub enum What<'a> {
    /// The payload of a record, with the record's number.
    Record(usize, Record<'a>),
    /// Points side by side: the number of the first, and how many there are.
    Points(u64, u64),
}

/// The parts of a file that go out.
pub struct Cutting<'a> {
    /// The lines for records and, behind them, those for points.
    of_records: &'a [CuttingLine],
    of_points: &'a [CuttingLine],
    /// All records of the file, and where they begin.
    records: Records<'a>,
    header_size: u64,
    point_offset: u64,
    /// Whether points that stand side by side have one line.
    runs: bool,
}

impl<'a> Cutting<'a> {
    /// The parts of a file, by the lines that the library gave for it.
    pub fn of(file: &'a [u8], lines: &'a [CuttingLine], runs: bool) -> Result<Self, Error> {
        let header = read_header(file)?;
        let point_offset = u64::from(header.point_offset);
        // A payload ends before the points. One without bytes may stand where the first point begins.
        let records = lines.partition_point(|line| line.place + line.length <= point_offset);
        let (of_records, of_points) = lines.split_at(records);
        Ok(Cutting {
            of_records,
            of_points,
            records: korbishaf::records(file)?,
            header_size: header.header_size.into(),
            point_offset,
            runs,
        })
    }

    /// The number of records.
    pub fn records(&self) -> usize {
        self.of_records.len()
    }

    /// The number of points.
    pub fn points(&self) -> usize {
        self.of_points.len()
    }

    /// The number of bytes.
    pub fn bytes(&self) -> u64 {
        let lines = self.of_records.iter().chain(self.of_points);
        lines.map(|line| line.length).sum()
    }

    /// What the lines are about, in the order of the file, one at a time.
    pub fn parts(&self) -> impl Iterator<Item = Part<'a>> + Clone + use<'a> {
        self.record_parts().chain(self.point_parts())
    }

    /// The records of the file that have a line, which is at their payload.
    fn record_parts(&self) -> impl Iterator<Item = Part<'a>> + Clone + use<'a> {
        let mut lines = self.of_records.iter().peekable();
        let records = (1..).zip(self.records.clone());
        let placed = records.scan(self.header_size, |end, (number, record)| {
            let place = *end + RECORD_HEADER as u64;
            *end = place + record.payload.len() as u64;
            Some((place, number, record))
        });
        placed.filter_map(move |(place, number, record)| {
            let line = lines.next_if(|line| line.place == place)?;
            Some(part_of(line, line.length, What::Record(number, record)))
        })
    }

    fn point_parts(&self) -> impl Iterator<Item = Part<'a>> + Clone + use<'a> {
        let (mut rest, runs, offset) = (self.of_points, self.runs, self.point_offset);
        iter::from_fn(move || {
            let first = rest.first()?;
            let (run, behind) = rest.split_at(if runs { run_length(rest) } else { 1 });
            rest = behind;
            let (number, count) = ((first.place - offset) / first.length, run.len() as u64);
            let what = What::Points(number + 1, count);
            Some(part_of(first, count * first.length, what))
        })
    }
}

fn part_of<'a>(line: &CuttingLine, length: u64, what: What<'a>) -> Part<'a> {
    Part {
        place: line.place,
        length,
        what,
    }
}

/// How many lines stand side by side at the front.
fn run_length(lines: &[CuttingLine]) -> usize {
    let pairs = lines.iter().zip(lines.iter().skip(1));
    let joined = pairs.take_while(|(line, next)| line.place + line.length == next.place);
    1 + joined.count()
}

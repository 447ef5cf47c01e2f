//! The cutting list: which parts of a file a release takes.

use std::ops::Range;

use crate::file::LasFile;
use crate::refusal::Refusal;
use crate::release::{keeps_by_class, keeps_point};
use crate::sheet::Sheet;

/// One line of a cutting list: where a kept record's payload or a kept point stands in the file.
#[derive(Debug, Clone, Copy, PartialEq, Eq, Default)]
pub struct Line {
    /// The place of its first byte.
    pub place: u64,
    /// The number of its bytes; 0 for an empty payload.
    pub length: u64,
}

impl Line {
    /// The places of its bytes.
    pub(crate) fn range(&self) -> Range<usize> {
        self.place as usize..(self.place + self.length) as usize
    }
}

/// Fills the front of `list` with a line for every kept record's payload and every kept point in file order, and
/// returns their number; lines beyond the last stay.
///
/// Refusals come in the order file (1 to 10), sheet (20 to 24), list (31), and leave `list` as it was.
pub fn cutting_list(file: &[u8], sheet: &[u8], list: &mut [Line]) -> Result<usize, Refusal> {
    let file = LasFile::open(file)?;
    let sheet = Sheet::read(sheet)?;
    // Asked once and not for each point, as for a release.
    if sheet.has_boxes() {
        KeptLines::new(&file, &sheet, |record| keeps_point(&sheet, record)).list(list)
    } else {
        KeptLines::new(&file, &sheet, |record| keeps_by_class(&sheet, record)).list(list)
    }
}

/// What a sheet keeps of a file, as lines, with the test of a point's record that the sheet comes to. The points are
/// only counted at first, and asked about again for their lines.
pub(crate) struct KeptLines<'a, K> {
    file: &'a LasFile<'a>,
    keeps: K,
    /// A line for the payload of each kept record.
    pub records: Vec<Line>,
    pub point_count: usize,
}

impl<'a, K: Fn(&[u8]) -> bool> KeptLines<'a, K> {
    pub fn new(file: &'a LasFile<'a>, sheet: &Sheet<'_>, keeps: K) -> Self {
        Self {
            file,
            records: file
                .vlrs()
                .filter(|vlr| sheet.keeps_record(vlr.user_id, vlr.record_id))
                .map(|vlr| Line {
                    place: vlr.payload_place() as u64,
                    length: vlr.payload.len() as u64,
                })
                .collect(),
            point_count: kept_points(file, &keeps).count(),
            keeps,
        }
    }

    /// Fills the front of `list` and returns the number of lines, or gives 31.
    fn list(&self, list: &mut [Line]) -> Result<usize, Refusal> {
        let list = self.front_of(list)?;
        self.fill(list);
        Ok(list.len())
    }

    /// As many lines of `list` as there are kept records and points, or 31 if it has fewer.
    pub fn front_of<'l>(&self, list: &'l mut [Line]) -> Result<&'l mut [Line], Refusal> {
        list.get_mut(..self.records.len() + self.point_count)
            .ok_or(Refusal::ListTooShort)
    }

    /// Writes the lines over `list`, which has their number.
    pub fn fill(&self, list: &mut [Line]) {
        let (records, points) = list.split_at_mut(self.records.len());
        records.copy_from_slice(&self.records);
        for (to, line) in points.iter_mut().zip(kept_points(self.file, &self.keeps)) {
            *to = line;
        }
    }
}

/// A line for each point that is kept by a test of its record, extra bytes included.
fn kept_points(file: &LasFile<'_>, keeps: impl Fn(&[u8]) -> bool) -> impl Iterator<Item = Line> {
    let length = file.header().record_length;
    let places = (u64::from(file.header().point_offset)..).step_by(usize::from(length));
    places
        .zip(file.points())
        .filter(move |(_, record)| keeps(record))
        .map(move |(place, _)| Line {
            place,
            length: u64::from(length),
        })
}

#[cfg(test)]
mod tests {
    use super::*;
    use crate::sample::{
        P3_SHEET, PARTS_LIST, box_line, every_class_byte_file, line, p9_file, parts_file,
        parts_sheet,
    };

    /// A line that no file here has.
    const JUNK: Line = line(u64::MAX, u64::MAX - 1);

    /// The lines of a list that has one line too many, which has to stay.
    fn listed(file: &[u8], sheet: &[u8], lines: usize) -> Vec<Line> {
        let mut list = vec![JUNK; lines + 1];
        assert_eq!(cutting_list(file, sheet, &mut list), Ok(lines));
        assert_eq!(list.pop(), Some(JUNK));
        list
    }

    #[test]
    fn payloads_and_kept_points_are_listed_in_file_order() {
        assert_eq!(listed(&parts_file(), &parts_sheet(), 5), PARTS_LIST);
    }

    #[test]
    fn lines_beyond_the_last_stay() {
        let mut list: [Line; 8] = std::array::from_fn(|index| line(index as u64, 100));
        assert_eq!(
            cutting_list(&parts_file(), &parts_sheet(), &mut list),
            Ok(5)
        );
        assert_eq!(list[..5], PARTS_LIST);
        assert_eq!(list[5..], [line(5, 100), line(6, 100), line(7, 100)]);
    }

    #[test]
    fn a_list_of_the_very_length_is_filled_and_every_shorter_one_refused() {
        let mut list = [JUNK; 5];
        for length in 0..5 {
            let answer = cutting_list(&parts_file(), &parts_sheet(), &mut list[..length]);
            assert_eq!(answer, Err(Refusal::ListTooShort), "{length}");
            assert_eq!(list, [JUNK; 5]);
        }
        assert_eq!(
            cutting_list(&parts_file(), &parts_sheet(), &mut list),
            Ok(5)
        );
        assert_eq!(list, PARTS_LIST);
    }

    #[test]
    fn a_list_too_short_gives_31() {
        assert_eq!(Refusal::ListTooShort.number(), 31);
    }

    #[test]
    fn the_sheet_may_keep_records_alone_or_points_alone() {
        let sheet = parts_sheet();
        let (points, records) = sheet.split_at(5);
        assert_eq!(listed(&parts_file(), points, 3), PARTS_LIST[2..]);
        assert_eq!(listed(&parts_file(), records, 2), PARTS_LIST[..2]);
    }

    #[test]
    fn where_nothing_is_kept_an_empty_list_is_good() {
        for (file, sheet) in [
            (parts_file(), [].as_slice()),
            (parts_file(), &[0x4B, 0x53, 1, 32, 255]),
            (parts_file(), &box_line([i32::MIN; 3], [i32::MAX; 3])),
            (p9_file(), &parts_sheet()[5..26]),
        ] {
            assert_eq!(cutting_list(&file, sheet, &mut []), Ok(0));
            assert_eq!(listed(&file, sheet, 0), []);
        }
    }

    #[test]
    fn points_have_their_class_without_flags_and_none_is_withheld() {
        let lines = [2, 34, 66, 98].map(|index| line(291 + 28 * index, 28));
        assert_eq!(listed(&every_class_byte_file(), &P3_SHEET, 4), lines);
    }

    #[test]
    fn points_outside_all_boxes_have_no_line() {
        // Of the kept classes X are 10, -30 and 20, Y are 2X, Z are -X.
        let (first, third) = ([10, 20, -10], [-30, -60, 30]);
        let one = [parts_sheet(), box_line(third, third)].concat();
        let lines = [PARTS_LIST[0], PARTS_LIST[1], PARTS_LIST[3]];
        assert_eq!(listed(&parts_file(), &one, 3), lines);
        let two = [one, box_line(first, first)].concat();
        assert_eq!(listed(&parts_file(), &two, 4), PARTS_LIST[..4]);
        let mut short = [JUNK; 3];
        let answer = cutting_list(&parts_file(), &two, &mut short);
        assert_eq!(answer, Err(Refusal::ListTooShort));
        assert_eq!(short, [JUNK; 3]);
    }

    #[test]
    fn a_gap_before_the_points_is_in_their_places() {
        let mut file = p9_file();
        file.splice(291..291, [0xAA; 4]);
        file[96..98].copy_from_slice(&295u16.to_le_bytes());
        let sheet = [parts_sheet().as_slice(), &[0x4B, 0x53, 1, 0, 31]].concat();
        let lines = [line(281, 10), line(295, 28), line(323, 28)];
        assert_eq!(listed(&file, &sheet, 3), lines);
    }

    #[test]
    fn faults_of_the_file_and_then_of_the_sheet_come_before_a_list_too_short() {
        let (file, sheet) = (parts_file(), parts_sheet());
        let mut bad_scale = file.clone();
        bad_scale[131..139].fill(0);
        for (file, sheet, refusal) in [
            (&file[..226], b"KS".as_slice(), Refusal::FileTooSmall),
            (&file[..508], &sheet, Refusal::PointsPastEnd),
            (&bad_scale, b"KS", Refusal::BadScaling),
            (&file, b"KT\x01", Refusal::WrongMark),
            (&file, &sheet[..46], Refusal::LineCut),
            (&file, &box_line([0; 3], [0, -1, 0]), Refusal::ReversedRange),
            (&file, &P3_SHEET.repeat(65), Refusal::TooManyLines),
        ] {
            for length in [0, 4, 9] {
                let mut list = vec![JUNK; length];
                assert_eq!(cutting_list(file, sheet, &mut list), Err(refusal));
                assert_eq!(list, vec![JUNK; length]);
            }
        }
    }
}

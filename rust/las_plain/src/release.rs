//! The release: what a sheet leaves of a file, written as a file of its own.

use crate::file::LasFile;
use crate::header::{HEADER_SIZE, Header};
use crate::point::{CLASS_PLACE, class_of, is_withheld, stored_position};
use crate::refusal::Refusal;
use crate::sheet::Sheet;
use crate::tally::Tally;
use crate::vlr::Vlr;

/// What an accepted release says.
#[derive(Debug, Clone, Copy, PartialEq, Eq)]
pub struct Released {
    /// The released file's length.
    pub length: u64,
    /// The number of kept points.
    pub points: u64,
    /// The number of kept records.
    pub records: u64,
}

/// Releases `file` under `sheet` into `out` and zeroes the output's rest.
///
/// Refusals come in the order file (1 to 10), sheet (20 to 24), room (30), and
/// leave `out` as it was.
pub fn release(file: &[u8], sheet: &[u8], out: &mut [u8]) -> Result<Released, Refusal> {
    let file = LasFile::open(file)?;
    let sheet = Sheet::read(sheet)?;
    // Asked once and not for each point: without boxes a point costs no more than its class.
    if sheet.has_boxes() {
        Kept::new(&file, &sheet, |record| keeps_point(&sheet, record)).release(out)
    } else {
        Kept::new(&file, &sheet, |record| keeps_by_class(&sheet, record)).release(out)
    }
}

/// Whether a sheet keeps the point with this record: by its class and, where the sheet has boxes, only in one of them.
#[inline]
pub(crate) fn keeps_point(sheet: &Sheet<'_>, record: &[u8]) -> bool {
    keeps_by_class(sheet, record) && sheet.keeps_position(stored_position(record))
}

/// Whether a sheet without boxes keeps the point with this record; a withheld one never, whatever the sheet says.
#[inline]
pub(crate) fn keeps_by_class(sheet: &Sheet<'_>, record: &[u8]) -> bool {
    let class_byte = record[CLASS_PLACE];
    // `&` and not `&&`: one branch per point instead of two.
    !is_withheld(class_byte) & sheet.keeps_class(class_of(class_byte))
}

/// The bytes of each point in order that is kept by a test of its record.
fn kept_points<'a>(
    file: &LasFile<'a>,
    keeps: impl Fn(&[u8]) -> bool,
) -> impl Iterator<Item = &'a [u8]> {
    file.points().filter(move |record| keeps(record))
}

/// What a sheet keeps of a file, with the test of a point's record that the sheet comes to.
struct Kept<'f, K> {
    file: &'f LasFile<'f>,
    keeps: K,
    records: Vec<Vlr<'f>>,
    point_count: usize,
}

impl<'f, K: Fn(&[u8]) -> bool> Kept<'f, K> {
    fn new(file: &'f LasFile<'f>, sheet: &Sheet<'_>, keeps: K) -> Self {
        Self {
            file,
            records: file
                .vlrs()
                .filter(|vlr| sheet.keeps_record(vlr.user_id, vlr.record_id))
                .collect(),
            point_count: kept_points(file, &keeps).count(),
            keeps,
        }
    }

    /// Writes the released file to the front of `out` and zeroes the rest, or gives 30.
    fn release(&self, out: &mut [u8]) -> Result<Released, Refusal> {
        let needed = self.length();
        let (released, rest) = out
            .split_at_mut_checked(needed)
            .ok_or(Refusal::OutputTooShort {
                needed: needed as u64,
            })?;
        self.write(released);
        rest.fill(0);
        Ok(Released {
            length: needed as u64,
            points: self.point_count as u64,
            records: self.records.len() as u64,
        })
    }

    fn point_offset(&self) -> usize {
        usize::from(HEADER_SIZE) + self.records.iter().map(Vlr::size).sum::<usize>()
    }

    fn length(&self) -> usize {
        self.point_offset() + self.point_count * usize::from(self.file.header().record_length)
    }

    /// Writes the released file over `out`, which has its length.
    fn write(&self, out: &mut [u8]) {
        let (front, points) = out.split_at_mut(self.point_offset());
        let (block, records) = front
            .split_first_chunk_mut()
            .expect("the front holds a header");
        self.write_records(records);
        let tally = self.write_points(points);
        self.header(&tally).write(block);
    }

    fn write_records(&self, mut room: &mut [u8]) {
        for vlr in &self.records {
            let (record, rest) = room.split_at_mut(vlr.size());
            vlr.write(record);
            room = rest;
        }
    }

    fn write_points(&self, room: &mut [u8]) -> Tally {
        let mut tally = Tally::new();
        let points = kept_points(self.file, &self.keeps);
        let rooms = room.chunks_exact_mut(usize::from(self.file.header().record_length));
        for (to, from) in rooms.zip(points) {
            to.copy_from_slice(from);
            tally.add(from);
        }
        tally
    }

    fn header(&self, tally: &Tally) -> Header<'f> {
        Header {
            header_size: HEADER_SIZE,
            point_offset: self.point_offset() as u32,
            record_count: self.records.len() as u32,
            ..self.file.header().tallied(tally)
        }
    }
}

#[cfg(test)]
mod tests {
    use super::*;
    use crate::bytes::{f64_at, u32_at};
    use crate::sample::{
        P3_SHEET, SAMPLE_BOX, around_sample_box, box_line, every_class_byte_file, p9_file,
        parts_file, parts_sheet, positions_file,
    };

    /// The classification bytes of the points that a sheet for these classes keeps, out of all 256.
    fn kept_class_bytes(lowest: u8, highest: u8) -> Vec<u8> {
        let file = every_class_byte_file();
        let mut out = vec![0xAA; file.len()];
        let answer = release(&file, &[0x4B, 0x53, 1, lowest, highest], &mut out).unwrap();
        let released = LasFile::open(&out[..answer.length as usize]).unwrap();
        assert_eq!(released.points().len() as u64, answer.points);
        released
            .points()
            .map(|record| record[CLASS_PLACE])
            .collect()
    }

    /// The stored values X, Y, Z that are kept, out of points of class 2, by a sheet for class 2 and these boxes.
    fn kept_positions(positions: &[[i32; 3]], boxes: &[Vec<u8>]) -> Vec<[i32; 3]> {
        let file = positions_file(positions);
        let sheet = [P3_SHEET.to_vec(), boxes.concat()].concat();
        let mut out = vec![0xAA; file.len()];
        let answer = release(&file, &sheet, &mut out).unwrap();
        let released = LasFile::open(&out[..answer.length as usize]).unwrap();
        assert_eq!(released.points().len() as u64, answer.points);
        released.points().map(stored_position).collect()
    }

    #[test]
    fn p9_one_point_of_class_2_makes_255_bytes() {
        let mut out = [0xAA; 300];
        let answer = release(&p9_file(), &P3_SHEET, &mut out);
        assert_eq!(
            answer,
            Ok(Released {
                length: 255,
                points: 1,
                records: 0
            })
        );
        let released = LasFile::open(&out[..255]).unwrap();
        assert_eq!(released.header().point_offset, 227);
        assert_eq!(out[227..255], p9_file()[319..347]);
        assert_eq!(out[255..], [0; 45]);
    }

    #[test]
    fn p9_an_output_of_255_is_accepted_and_one_of_254_refused() {
        assert!(release(&p9_file(), &P3_SHEET, &mut [0; 255]).is_ok());
        let mut short = [0xAA; 254];
        let answer = release(&p9_file(), &P3_SHEET, &mut short);
        assert_eq!(answer, Err(Refusal::OutputTooShort { needed: 255 }));
        assert_eq!(short, [0xAA; 254]);
    }

    #[test]
    fn p10_the_empty_sheet_leaves_a_header_with_bounds_of_plus_zero() {
        let mut out = [0xAA; 227];
        let answer = release(&p9_file(), &[], &mut out);
        assert_eq!(
            answer,
            Ok(Released {
                length: 227,
                points: 0,
                records: 0
            })
        );
        assert_eq!(out[179..], [0; 48]);
    }

    #[test]
    fn a_class_is_kept_with_every_flag_but_withheld() {
        assert_eq!(kept_class_bytes(2, 2), [2, 34, 66, 98]);
        assert_eq!(kept_class_bytes(31, 31), [31, 63, 95, 127]);
    }

    #[test]
    fn ranges_match_no_point_above_31() {
        assert_eq!(kept_class_bytes(66, 66), []);
        assert_eq!(kept_class_bytes(32, 255), []);
        let from_20_to_31: Vec<u8> = (0..=127).filter(|byte| byte % 32 >= 20).collect();
        assert_eq!(kept_class_bytes(20, 200), from_20_to_31);
    }

    #[test]
    fn a_sheet_for_every_class_keeps_all_points_but_the_withheld() {
        let not_withheld: Vec<u8> = (0..=127).collect();
        assert_eq!(kept_class_bytes(0, 255), not_withheld);
        assert_eq!(kept_class_bytes(0, 31), not_withheld);
    }

    #[test]
    fn a_withheld_point_is_in_no_count_and_no_bound() {
        let mut file = p9_file();
        file[319 + CLASS_PLACE] |= 0x80;
        let (mut withheld, mut empty) = ([0xAA; 300], [0xBB; 300]);
        let answer = release(&file, &P3_SHEET, &mut withheld);
        assert_eq!(answer, release(&file, &[], &mut empty));
        assert_eq!(withheld, empty);
    }

    #[test]
    fn a_box_keeps_its_faces_edges_and_corners_and_none_beside() {
        let around = around_sample_box();
        let positions: Vec<[i32; 3]> = around.iter().map(|&(position, _)| position).collect();
        let inside: Vec<[i32; 3]> = around
            .iter()
            .filter(|place| place.1)
            .map(|place| place.0)
            .collect();
        assert_eq!((positions.len(), inside.len()), (125, 27));
        let line = box_line(SAMPLE_BOX.low, SAMPLE_BOX.high);
        assert_eq!(kept_positions(&positions, &[line]), inside);
        assert_eq!(kept_positions(&positions, &[]), positions);
    }

    #[test]
    fn boxes_reach_the_extremes_of_stored_values() {
        let (min, max) = (i32::MIN, i32::MAX);
        let positions = [[min; 3], [min + 1; 3], [0; 3], [max - 1; 3], [max; 3]];
        for (low, high, kept) in [
            (min, max, &positions[..]),
            (min, min, &positions[..1]),
            (min, -1, &positions[..2]),
            (max, max, &positions[4..]),
            (0, max, &positions[2..]),
            (min + 1, max - 1, &positions[1..4]),
        ] {
            let line = box_line([low; 3], [high; 3]);
            assert_eq!(kept_positions(&positions, &[line]), kept, "{low} to {high}");
        }
    }

    #[test]
    fn a_point_in_overlapping_boxes_is_kept_once_and_in_file_order() {
        let positions = [[9; 3], [3; 3], [10; 3], [0; 3], [9, 0, 0], [4; 3]];
        let left = box_line([0; 3], [4; 3]);
        let right = box_line([3; 3], [9; 3]);
        let kept = [[9; 3], [3; 3], [0; 3], [4; 3]];
        assert_eq!(
            kept_positions(&positions, &[left.clone(), right.clone()]),
            kept
        );
        assert_eq!(kept_positions(&positions, &[right, left]), kept);
    }

    #[test]
    fn boxes_without_a_line_for_classes_keep_no_point() {
        let whole = box_line([i32::MIN; 3], [i32::MAX; 3]);
        let (mut boxed, mut empty) = ([0xAA; 300], [0xBB; 300]);
        let answer = release(&p9_file(), &whole, &mut boxed);
        assert_eq!(answer, release(&p9_file(), &[], &mut empty));
        assert_eq!(answer.unwrap().points, 0);
        assert_eq!(boxed, empty);
    }

    #[test]
    fn a_box_keeps_no_other_class_and_no_withheld_point() {
        let file = every_class_byte_file();
        let around = box_line([-1, -2, -1], [-1, -2, -1]);
        let sheet = [around.as_slice(), &P3_SHEET].concat();
        let (mut boxed, mut plain) = (vec![0xAA; file.len()], vec![0xBB; file.len()]);
        let answer = release(&file, &sheet, &mut boxed);
        assert_eq!(answer, release(&file, &P3_SHEET, &mut plain));
        assert_eq!(answer.unwrap().points, 4);
        assert_eq!(boxed, plain);
    }

    #[test]
    fn counts_and_bounds_are_those_of_the_points_in_the_boxes() {
        // Of the kept classes X are 10, -30 and 20, Y are 2X, Z are -X, and the return numbers 1, 1 and 3.
        let around = box_line([10, 20, -20], [20, 40, -10]);
        let sheet = [parts_sheet(), around].concat();
        let mut out = [0xAA; 400];
        let released = Released {
            length: 384,
            points: 2,
            records: 2,
        };
        assert_eq!(release(&parts_file(), &sheet, &mut out), Ok(released));
        assert_eq!(out[340..362], parts_file()[399..421]);
        assert_eq!(out[362..384], parts_file()[487..509]);
        assert_eq!(out[384..], [0; 16]);
        let counts: Vec<u32> = (0..6).map(|field| u32_at(&out, 107 + 4 * field)).collect();
        assert_eq!(counts, [2, 1, 0, 1, 0, 0]);
        let bounds: Vec<f64> = (0..6).map(|field| f64_at(&out, 179 + 8 * field)).collect();
        assert_eq!(bounds, [20.0, 15.0, 30.0, 20.0, 5.0, 0.0]);
    }

    #[test]
    fn boxes_around_no_point_leave_the_kept_records() {
        let beside = box_line([11, i32::MIN, i32::MIN], [19, i32::MAX, i32::MAX]);
        let sheet = [parts_sheet(), beside].concat();
        let (mut boxed, mut records) = ([0xAA; 400], [0xBB; 400]);
        let answer = release(&parts_file(), &sheet, &mut boxed);
        assert_eq!(
            answer,
            release(&parts_file(), &parts_sheet()[5..], &mut records)
        );
        assert_eq!((answer.unwrap().points, answer.unwrap().records), (0, 2));
        assert_eq!(boxed, records);
        assert_eq!(boxed[179..227], [0; 48]);
    }

    #[test]
    fn an_output_too_short_for_the_points_in_the_boxes_gives_30() {
        let around = box_line([10, 20, -20], [20, 40, -10]);
        let sheet = [parts_sheet(), around].concat();
        let mut short = [0xAA; 383];
        let answer = release(&parts_file(), &sheet, &mut short);
        assert_eq!(answer, Err(Refusal::OutputTooShort { needed: 384 }));
        assert_eq!(short, [0xAA; 383]);
    }

    #[test]
    fn a_kept_record_loses_its_reserved_field_and_text_tails() {
        let mut file = p9_file();
        file[227] = 9;
        file[250] = b'!';
        let sheet = [b"KS\x02user".as_slice(), &[0; 12], &[7, 0]].concat();
        let mut out = vec![0xAA; 291];
        let answer = release(&file, &sheet, &mut out);
        assert_eq!(
            answer,
            Ok(Released {
                length: 291,
                points: 0,
                records: 1
            })
        );
        assert_eq!(out[227..291], p9_file()[227..291]);
    }

    #[test]
    fn a_release_writes_zeros_for_the_spaces_behind_texts() {
        let mut file = p9_file();
        for (start, end) in [(26 + 5, 58), (58 + 7, 90), (229 + 4, 245), (249, 281)] {
            file[start..end].fill(b' ');
        }
        let sheet = [b"KS\x02user".as_slice(), &[0; 12], &[7, 0]].concat();
        let (mut padded, mut spaced) = ([0xAA; 291], [0xBB; 291]);
        let answer = release(&p9_file(), &sheet, &mut padded);
        assert_eq!(release(&file, &sheet, &mut spaced), answer);
        assert_eq!(answer.unwrap().records, 1);
        assert_eq!(spaced, padded);
        assert_eq!(spaced[229..245], *b"user\0\0\0\0\0\0\0\0\0\0\0\0");
        assert_eq!(spaced[249..281], [0; 32]);
    }

    #[test]
    fn a_release_of_a_release_is_the_same() {
        let (mut once, mut again) = ([0xAA; 300], [0xBB; 300]);
        let first = release(&p9_file(), &P3_SHEET, &mut once);
        assert_eq!(release(&once, &P3_SHEET, &mut again), first);
        assert_eq!(once, again);
    }
}

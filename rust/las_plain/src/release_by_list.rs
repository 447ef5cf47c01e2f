//! The second way of releasing: a cutting list is filled, and the released file is written from its lines.

use std::ops::Range;

use crate::cutting::{KeptLines, Line};
use crate::file::LasFile;
use crate::header::{HEADER_SIZE, Header};
use crate::refusal::Refusal;
use crate::release::{Released, keeps_by_class, keeps_point};
use crate::sheet::Sheet;
use crate::tally::Tally;
use crate::vlr::{HEAD, Vlr};

/// Releases `file` under `sheet` into `out` as [`release`](crate::release()) does, but fills `list` as
/// [`cutting_list`](crate::cutting_list()) does and writes from its lines.
///
/// Refusals come in the order file (1 to 10), sheet (20 to 24), list (31), room (30), and leave `out` and `list` as
/// they were.
pub fn release_by_list(
    file: &[u8],
    sheet: &[u8],
    out: &mut [u8],
    list: &mut [Line],
) -> Result<Released, Refusal> {
    let file = LasFile::open(file)?;
    let sheet = Sheet::read(sheet)?;
    // Asked once and not for each point, as for the first way.
    if sheet.has_boxes() {
        let kept = KeptLines::new(&file, &sheet, |record| keeps_point(&sheet, record));
        release_lines(&file, &kept, out, list)
    } else {
        let kept = KeptLines::new(&file, &sheet, |record| keeps_by_class(&sheet, record));
        release_lines(&file, &kept, out, list)
    }
}

/// Fills `list` with the kept lines and writes the released file from it to the front of `out`, or gives 31 or 30.
fn release_lines<K: Fn(&[u8]) -> bool>(
    file: &LasFile<'_>,
    kept: &KeptLines<'_, K>,
    out: &mut [u8],
    list: &mut [Line],
) -> Result<Released, Refusal> {
    let list = kept.front_of(list)?;
    let point_bytes = kept.point_count * usize::from(file.header().record_length);
    let needed = point_offset(&kept.records) + point_bytes;
    let (released, rest) = out
        .split_at_mut_checked(needed)
        .ok_or(Refusal::OutputTooShort {
            needed: needed as u64,
        })?;
    kept.fill(list);
    let (records, points) = list.split_at(kept.records.len());
    write(file, records, points, released);
    rest.fill(0);
    Ok(Released {
        length: needed as u64,
        points: points.len() as u64,
        records: records.len() as u64,
    })
}

/// Where the points begin in a released file with these payloads.
fn point_offset(records: &[Line]) -> usize {
    let sizes = records.iter().map(|line| HEAD + line.range().len());
    usize::from(HEADER_SIZE) + sizes.sum::<usize>()
}

/// Writes the released file that the lines make over `out`, which has its length; no sheet is asked.
fn write(file: &LasFile<'_>, records: &[Line], points: &[Line], out: &mut [u8]) {
    let (front, point_room) = out.split_at_mut(point_offset(records));
    let (block, record_room) = front
        .split_first_chunk_mut()
        .expect("the front holds a header");
    write_records(file.bytes(), records, record_room);
    let tally = write_points(file.bytes(), points, point_room);
    let header = Header {
        header_size: HEADER_SIZE,
        point_offset: point_offset(records) as u32,
        record_count: records.len() as u32,
        ..file.header().tallied(&tally)
    };
    header.write(block);
}

fn write_records(file: &[u8], records: &[Line], mut room: &mut [u8]) {
    for line in records {
        let vlr = record_of(file, line);
        let (record, rest) = room.split_at_mut(vlr.size());
        vlr.write(record);
        room = rest;
    }
}

/// The record whose payload a line gives; its header stands just before the payload.
fn record_of<'a>(file: &'a [u8], payload: &Line) -> Vlr<'a> {
    let Range { start, end } = payload.range();
    let (before, payload) = file[..end].split_at(start);
    let head = before
        .last_chunk()
        .expect("a payload has its header before it");
    Vlr::with_payload(start - HEAD, head, payload)
}

fn write_points(file: &[u8], points: &[Line], mut room: &mut [u8]) -> Tally {
    let mut tally = Tally::new();
    for line in points {
        let from = &file[line.range()];
        let (to, rest) = room.split_at_mut(from.len());
        to.copy_from_slice(from);
        tally.add(from);
        room = rest;
    }
    tally
}

#[cfg(test)]
mod tests {
    use super::*;
    use crate::bytes::{f64_at, u16_at, u32_at};
    use crate::cutting::cutting_list;
    use crate::release::release;
    use crate::sample::{
        P3_SHEET, PARTS_LIST, box_line, every_class_byte_file, line, p9_file, parts_file,
        parts_sheet,
    };

    /// A line that no file here has.
    const JUNK: Line = line(u64::MAX, u64::MAX - 1);

    /// What the release of the file of parts answers: 227 + 59 + 54 bytes before the points, then three of 22.
    const PARTS_RELEASED: Released = Released {
        length: 406,
        points: 3,
        records: 2,
    };

    /// The output for the file of parts, with 4 bytes beyond the released file.
    fn parts_output() -> [u8; 410] {
        let (mut out, mut list) = ([0xAA; 410], [JUNK; 7]);
        let answer = release_by_list(&parts_file(), &parts_sheet(), &mut out, &mut list);
        assert_eq!(answer, Ok(PARTS_RELEASED));
        assert_eq!(list[..5], PARTS_LIST);
        assert_eq!(list[5..], [JUNK; 2]);
        out
    }

    #[test]
    fn records_are_written_with_clean_headers() {
        let mut expected = vec![0; 227];
        expected.extend(b"\0\0user\0\0\0\0\0\0\0\0\0\0\0\0\x07\0\x05\0text");
        expected.resize(281, 0);
        expected.extend(b"first\0\0other\0\0\0\0\0\0\0\0\0\0\0\x07\0\0\0text");
        expected.resize(340, 0);
        assert_eq!(parts_output()[227..340], expected[227..]);
    }

    #[test]
    fn points_are_written_whole_and_the_rest_is_zeroed() {
        let (out, file) = (parts_output(), parts_file());
        assert_eq!(out[340..362], file[399..421]);
        assert_eq!(out[362..384], file[443..465]);
        assert_eq!(out[384..406], file[487..509]);
        assert_eq!([out[361], out[383], out[405]], [0xF0, 0xF2, 0xF4]);
        assert_eq!(out[406..], [0; 4]);
    }

    #[test]
    fn the_header_tells_of_what_was_written() {
        let (out, file) = (parts_output(), parts_file());
        assert_eq!(out[..94], file[..94]);
        assert_eq!((u16_at(&out, 94), u32_at(&out, 96)), (227, 340));
        assert_eq!((u32_at(&out, 100), out[104]), (2, 0));
        assert_eq!((u16_at(&out, 105), u32_at(&out, 107)), (22, 3));
        let bins: Vec<u32> = (0..5).map(|bin| u32_at(&out, 111 + 4 * bin)).collect();
        assert_eq!(bins, [2, 0, 1, 0, 0]);
        assert_eq!(out[131..179], file[131..179]);
        // Kept X are 10, -30 and 20, Y are 2X, Z are -X; each coordinate is half of it plus 10.
        let bounds: Vec<f64> = (0..6).map(|i| f64_at(&out, 179 + 8 * i)).collect();
        assert_eq!(bounds, [20.0, -5.0, 30.0, -20.0, 25.0, 0.0]);
    }

    /// Compares both ways for an output of `length`, with a list that has one line too many.
    fn assert_same_as_release(file: &[u8], sheet: &[u8], length: usize) {
        let (mut first, mut second) = (vec![0xAA; length], vec![0xAA; length]);
        let mut list = vec![JUNK; 300];
        let lines = cutting_list(file, sheet, &mut list).unwrap();
        list.fill(JUNK);
        let answer = release_by_list(file, sheet, &mut second, &mut list[..=lines]);
        assert_eq!(answer, release(file, sheet, &mut first), "{length}");
        assert_eq!(second, first, "{length}");
    }

    #[test]
    fn both_ways_give_the_same_output_and_numbers() {
        let both = parts_sheet();
        let around_p9 = box_line([-1, -2, -1], [-1, -2, -1]);
        let boxed = [both.clone(), box_line([0, 0, -99], [99, 99, 0]), around_p9].concat();
        let boxes = &boxed[both.len()..];
        for file in [parts_file(), p9_file(), every_class_byte_file()] {
            for sheet in [
                &[],
                &both[..5],
                &both[5..],
                &both,
                b"KS\x01\x00\xFF",
                &boxed,
                boxes,
            ] {
                let mut out = vec![0; file.len()];
                let released = release(&file, sheet, &mut out).unwrap().length as usize;
                for length in [0, 226, released - 1, released, released + 1, file.len()] {
                    assert_same_as_release(&file, sheet, length);
                }
            }
        }
    }

    #[test]
    fn a_list_too_short_by_one_gives_31_whatever_the_output_and_changes_nothing() {
        for length in [0, 405, 406, 500] {
            let (mut out, mut list) = (vec![0xAA; length], [JUNK; 4]);
            let answer = release_by_list(&parts_file(), &parts_sheet(), &mut out, &mut list);
            assert_eq!(answer, Err(Refusal::ListTooShort));
            assert_eq!(out, vec![0xAA; length]);
            assert_eq!(list, [JUNK; 4]);
        }
    }

    #[test]
    fn an_output_too_short_gives_30_and_leaves_the_list() {
        for (length, lines) in [(0, 5), (226, 5), (405, 5), (405, 9)] {
            let (mut out, mut list) = (vec![0xAA; length], vec![JUNK; lines]);
            let answer = release_by_list(&parts_file(), &parts_sheet(), &mut out, &mut list);
            assert_eq!(answer, Err(Refusal::OutputTooShort { needed: 406 }));
            assert_eq!(out, vec![0xAA; length]);
            assert_eq!(list, vec![JUNK; lines]);
        }
    }

    #[test]
    fn output_and_list_of_the_very_lengths_are_accepted() {
        let (mut out, mut list) = ([0xAA; 406], [JUNK; 5]);
        let answer = release_by_list(&parts_file(), &parts_sheet(), &mut out, &mut list);
        assert_eq!(answer, Ok(PARTS_RELEASED));
        assert_eq!(out, parts_output()[..406]);
        assert_eq!(list, PARTS_LIST);
    }

    #[test]
    fn where_nothing_is_kept_an_empty_list_is_good() {
        let mut out = [0xAA; 230];
        let answer = release_by_list(&parts_file(), &[], &mut out, &mut []);
        let header_alone = Released {
            length: 227,
            points: 0,
            records: 0,
        };
        assert_eq!(answer, Ok(header_alone));
        assert_eq!((u32_at(&out, 96), u32_at(&out, 100)), (227, 0));
        assert_eq!(out[107..131], [0; 24]);
        assert_eq!(out[179..], [0; 51]);
    }

    #[test]
    fn faults_of_the_file_and_then_of_the_sheet_come_first() {
        let (file, sheet) = (parts_file(), parts_sheet());
        for (file, sheet, refusal) in [
            (&file[..226], b"KS".as_slice(), Refusal::FileTooSmall),
            (&file[..508], b"KS", Refusal::PointsPastEnd),
            (&file, &sheet[..46], Refusal::LineCut),
            (&file, &box_line([0; 3], [0, -1, 0]), Refusal::ReversedRange),
            (&file, &P3_SHEET.repeat(65), Refusal::TooManyLines),
        ] {
            for (length, lines) in [(0, 0), (0, 9), (500, 0), (500, 9)] {
                let (mut out, mut list) = (vec![0xAA; length], vec![JUNK; lines]);
                let answer = release_by_list(file, sheet, &mut out, &mut list);
                assert_eq!(answer, Err(refusal));
                assert_eq!(out, vec![0xAA; length]);
                assert_eq!(list, vec![JUNK; lines]);
            }
        }
    }

    #[test]
    fn writing_follows_the_lines_alone() {
        let bytes = parts_file();
        let file = LasFile::open(&bytes).unwrap();
        // The first two bytes of the payload "mid", and points in another order, one of them withheld.
        let mut out = [0xAA; 327];
        write(
            &file,
            &[line(342, 2)],
            &[line(465, 22), line(399, 22)],
            &mut out,
        );
        assert_eq!(
            out[227..251],
            *b"\0\0user\0\0\0\0\0\0\0\0\0\0\0\0\x08\0\x02\0te"
        );
        assert_eq!(out[281..283], *b"mi");
        assert_eq!(out[283..305], bytes[465..487]);
        assert_eq!(out[305..327], bytes[399..421]);
        assert_eq!((u32_at(&out, 96), u32_at(&out, 107)), (283, 2));
    }
}

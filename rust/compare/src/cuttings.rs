//! What every cutting list has to be like, read off the list, the file and the released file alone.

use crate::answers::{Line, Released};
use crate::damage::{POINT_COUNT, POINT_OFFSET, RECORD_LENGTH, VLR_COUNT};

/// Where the records of a released file begin.
const RECORDS: usize = 227;
/// The bytes of a record's header, and the place of the payload's length in it.
const RECORD_HEADER: usize = 54;
const PAYLOAD_LENGTH: usize = 20;

/// Whether all lines lie in the file, behind its header, and each begins where the one before it ends, or behind that:
/// so places never fall, and no two lines overlap.
pub fn are_sound(file: &[u8], lines: &[Line]) -> bool {
    let mut free = RECORDS as u64;
    lines.iter().all(|line| {
        let begins_at = free.max(line.place);
        free = line.place.saturating_add(line.length);
        line.place == begins_at && free <= file.len() as u64
    })
}

/// Whether the lines name what was released, byte for byte: the payload of each record, then each point.
pub fn name_released(file: &[u8], lines: &[Line], answer: &Released, out: &[u8]) -> bool {
    let released = &out[..answer.length as usize];
    let named = |line: &Line| &file[line.place as usize..][..line.length as usize];
    let named: Vec<&[u8]> = lines.iter().map(named).collect();
    let counts = (VLR_COUNT.get(released), POINT_COUNT.get(released));
    counts == (answer.records, answer.points)
        && named == [payloads(released), points(released)].concat()
}

/// The payloads of a released file.
fn payloads(released: &[u8]) -> Vec<&[u8]> {
    let mut rest = &released[RECORDS..];
    let mut payloads = Vec::new();
    for _ in 0..VLR_COUNT.get(released) {
        let (header, behind) = rest.split_at(RECORD_HEADER);
        let length = u16::from_le_bytes([header[PAYLOAD_LENGTH], header[PAYLOAD_LENGTH + 1]]);
        let payload;
        (payload, rest) = behind.split_at(length.into());
        payloads.push(payload);
    }
    payloads
}

/// The points of a released file, which has nothing behind them.
fn points(released: &[u8]) -> Vec<&[u8]> {
    let (_, points) = released.split_at(POINT_OFFSET.get(released) as usize);
    let length = RECORD_LENGTH.get(released) as usize;
    points.chunks(length).collect()
}

#[cfg(test)]
mod tests {
    use super::*;
    use crate::plain;
    use crate::spec::{FileSpec, LineSpec, SheetSpec, padded, projection};

    fn line(place: u64, length: u64) -> Line {
        Line { place, length }
    }

    /// Whether lines are sound in a file of 300 bytes.
    fn sound(lines: &[Line]) -> bool {
        are_sound(&[0; 300], lines)
    }

    #[test]
    fn lines_are_sound_in_the_file_in_order_and_apart() {
        assert!(sound(&[]));
        assert!(sound(&[line(227, 0), line(227, 73)]));
        assert!(sound(&[
            line(230, 20),
            line(250, 0),
            line(250, 20),
            line(300, 0)
        ]));
        assert!(!sound(&[line(226, 1)]));
        assert!(!sound(&[line(227, 74)]));
        assert!(!sound(&[line(301, 0)]));
        assert!(!sound(&[line(u64::MAX, 2)]));
        assert!(!sound(&[line(250, 20), line(230, 20)]));
        assert!(!sound(&[line(230, 20), line(249, 20)]));
        assert!(!sound(&[line(230, 20), line(230, 20)]));
    }

    /// Two records, one of them kept, and two points, one of them kept.
    fn file() -> Vec<u8> {
        FileSpec {
            records: vec![projection(1, b"first"), projection(2, b"second")],
            points: vec![vec![3; 20], vec![2; 20]],
            ..FileSpec::bare(0)
        }
        .bytes()
    }

    /// Whether these lines name what is released of that file.
    fn names(lines: &[Line]) -> bool {
        let record = LineSpec::Record(padded(b"LASF_Projection"), 2);
        let sheet = SheetSpec::new([LineSpec::Classes(2, 2), record]).bytes();
        let mut out = [0xEE; 400];
        let answer = plain::release(&file(), &sheet, &mut out);
        name_released(&file(), lines, &answer, &out)
    }

    #[test]
    fn lines_name_what_is_released_and_nothing_else() {
        let (payload, point) = (line(340, 6), line(366, 20));
        assert!(names(&[payload, point]));
        for wrong in [line(281, 5), line(340, 5), line(339, 6), line(340, 0)] {
            assert!(!names(&[wrong, point]));
        }
        for wrong in [line(346, 20), line(366, 19), line(365, 20)] {
            assert!(!names(&[payload, wrong]));
        }
        assert!(!names(&[point, payload]));
        assert!(!names(&[payload]));
        assert!(!names(&[payload, point, point]));
        assert!(!names(&[payload, line(366, 10), line(376, 10)]));
    }
}

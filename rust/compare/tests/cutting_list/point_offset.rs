//! Records that end at the point offset, where an empty payload has the place of the first point or of the file's end.

use compare::compared::Compared;
use compare::damage::POINT_OFFSET;
use compare::rng::{FIXED_SEED, Rng};
use compare::spec::{FileSpec, LineSpec, SheetSpec, padded, projection};

use super::table::{Case, line, list_lengths, not_listed, rooms};

/// A file whose records have payloads of these lengths, the last of them ending at the point offset or a gap before it,
/// with so many points, of which every second is kept, and nothing behind them.
fn file(payloads: &[usize], gap: usize, points: usize) -> FileSpec {
    let records = payloads.iter().zip(1..);
    FileSpec {
        records: records
            .map(|(&length, byte)| projection(7, vec![byte; length]))
            .collect(),
        gap: vec![0xEE; gap],
        points: (0..points)
            .map(|index| vec![2 + (index % 2) as u8; 20])
            .collect(),
        ..FileSpec::bare(0)
    }
}

/// Keeps all records and class 2.
fn sheet() -> SheetSpec {
    let record = LineSpec::Record(padded(b"LASF_Projection"), 7);
    SheetSpec::new([LineSpec::Classes(2, 2), record])
}

/// Payloads whose last is empty, of one byte, or as long as one can be.
const PAYLOADS: [&[usize]; 9] = [
    &[0],
    &[1],
    &[9],
    &[65535],
    &[0, 0],
    &[0, 0, 0, 0, 0],
    &[9, 0],
    &[0, 9],
    &[65535, 0, 1, 0],
];

#[test]
fn records_up_to_the_point_offset_and_just_before_it_are_listed_and_released() {
    let (mut rng, mut compared) = (Rng::new(FIXED_SEED), Compared::new());
    for payloads in PAYLOADS {
        for (gap, points) in [(0, 0), (0, 1), (0, 2), (0, 5), (1, 0), (1, 3), (54, 1)] {
            let case = Case::new(&file(payloads, gap, points), &sheet());
            assert_eq!(case.lines.len(), payloads.len() + points.div_ceil(2));
            compared.case(format!("payloads {payloads:?}, gap {gap}, {points} points"));
            for length in list_lengths(&mut rng, case.lines.len()) {
                case.assert_listed(&mut compared, &mut rng, length);
                for room in rooms(&mut rng, case.needed()) {
                    case.assert_released(&mut compared, &mut rng, length, room);
                }
            }
        }
    }
}

#[test]
fn an_empty_payload_at_the_point_offset_has_the_place_that_is_written_here() {
    let mut compared = Compared::new();
    let mut listed = |spec: FileSpec| {
        let (answer, list) =
            compared.cutting_list(&spec.bytes(), &sheet().bytes(), &[line(5, 5); 4]);
        list[..answer.lines as usize].to_vec()
    };
    // The payload and the first point have one place, and so have the file's end and a payload with nothing behind it.
    assert_eq!(listed(file(&[0], 0, 1)), [line(281, 0), line(281, 20)]);
    assert_eq!(listed(file(&[0], 0, 0)), [line(281, 0)]);
    assert_eq!(file(&[0], 0, 0).bytes().len(), 281);
    assert_eq!(listed(file(&[0], 1, 1)), [line(281, 0), line(282, 20)]);
    assert_eq!(listed(file(&[3], 0, 0)), [line(281, 3)]);
    assert_eq!(
        listed(file(&[0, 0], 0, 3)),
        [line(281, 0), line(335, 0), line(335, 20), line(375, 20)]
    );
}

#[test]
fn a_record_that_ends_one_past_the_point_offset_gives_8_and_no_line() {
    let mut compared = Compared::new();
    for payloads in PAYLOADS {
        let spec = file(payloads, 0, 0);
        let offset = spec.point_offset() as u64 - 1;
        let short = POINT_OFFSET.with(&spec.bytes(), offset);
        compared.case(format!("payloads {payloads:?}"));
        let (answer, _) = compared.cutting_list(&short, &sheet().bytes(), &[line(5, 5); 9]);
        assert_eq!(answer, not_listed(8));
        let room = vec![0xEE; short.len()];
        let (answer, ..) =
            compared.release_by_list(&short, &sheet().bytes(), &room, &[line(5, 5); 9]);
        assert_eq!(answer.number, 8);
    }
}

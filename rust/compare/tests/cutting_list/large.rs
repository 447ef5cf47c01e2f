//! Many records and points, and the longest of them.

use compare::compared::Compared;
use compare::rng::{FIXED_SEED, Rng};
use compare::spec::{FileSpec, LineSpec, RecordSpec, SheetSpec, padded, projection, random_point};

use super::table::Case;

/// Keeps about half of the points, and the records of one name.
fn sheet() -> SheetSpec {
    SheetSpec::new([
        LineSpec::Classes(0, 4),
        LineSpec::Record(padded(b"user"), 7),
    ])
}

fn kept(payload: Vec<u8>) -> RecordSpec {
    RecordSpec {
        user: padded(b"user"),
        ..projection(7, payload)
    }
}

/// Lists that are one too short, exact and longer, and outputs that are exact and one too short.
fn assert_all(spec: &FileSpec, name: &str) {
    let (mut rng, mut compared) = (Rng::new(FIXED_SEED), Compared::new());
    let case = Case::new(spec, &sheet());
    compared.case(name);
    let lines = case.lines.len();
    for (length, numbers) in [(lines - 1, [31; 2]), (lines, [0, 30]), (lines + 7, [0, 30])] {
        case.assert_listed(&mut compared, &mut rng, length);
        let rooms = [case.needed(), case.needed() - 1];
        let given = rooms.map(|room| case.assert_released(&mut compared, &mut rng, length, room));
        assert_eq!(given, numbers, "{name}, a list of {length}");
    }
}

#[test]
fn many_points_and_the_longest_records() {
    let mut rng = Rng::new(FIXED_SEED);
    let records = [
        kept(rng.bytes(65535)),
        projection(7, vec![1; 65535]),
        kept(rng.bytes(65535)),
    ];
    for (format, record_length, points) in [
        (0, 20, 60_000),
        (1, 28, 60_000),
        (2, 300, 999),
        (3, 65535, 12),
    ] {
        let spec = FileSpec {
            record_length,
            records: records.to_vec(),
            points: (0..points)
                .map(|_| random_point(&mut rng, record_length))
                .collect(),
            ..FileSpec::bare(format)
        };
        assert_all(
            &spec,
            &format!("format {format}, {points} points of {record_length}"),
        );
    }
}

#[test]
fn many_records_and_all_of_them_kept_or_some() {
    for (name, payload, kept_of_three) in [
        ("empty payloads, all kept", 0, 3),
        ("empty payloads, some kept", 0, 1),
        ("payloads of 8, all kept", 8, 3),
        ("payloads of 8, some kept", 8, 2),
    ] {
        let record = |index: usize| {
            let payload = vec![index as u8; payload];
            if index % 3 < kept_of_three {
                kept(payload)
            } else {
                projection(7, payload)
            }
        };
        let spec = FileSpec {
            records: (0..9000).map(record).collect(),
            points: vec![vec![2; 20], vec![9; 20]],
            ..FileSpec::bare(0)
        };
        assert_all(&spec, name);
    }
}

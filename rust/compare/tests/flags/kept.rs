//! Which points a release has, of files with a point of every classification byte.

use compare::answers::Released;
use compare::compared::Compared;
use compare::rng::{FIXED_SEED, Rng, seeds};
use compare::rooms::{MORE, release};
use compare::spec::{FileSpec, LAYOUTS, random_point_of};

use super::table::{OnSheet, SHEETS, every_byte, formats};

/// The same file with only the points that are kept.
fn kept_alone(spec: &FileSpec, on_sheet: &OnSheet) -> FileSpec {
    let points = (0..=255).zip(&spec.points);
    let kept = points.filter(|(byte, _)| on_sheet.keeps(*byte));
    FileSpec {
        points: kept.map(|(_, point)| point.clone()).collect(),
        ..spec.clone()
    }
}

/// The numbers of a release with so many points, and so many of the records of [`every_byte`].
fn released(spec: &FileSpec, points: usize, records: u64) -> Released {
    let points_size = points * usize::from(spec.record_length);
    let record_size = spec.records[0].size();
    Released {
        number: 0,
        length: (227 + points_size) as u64 + record_size as u64 * records,
        points: points as u64,
        records,
    }
}

#[test]
fn a_release_has_the_points_of_the_bytes_that_are_written_here_and_no_others() {
    for seed in seeds() {
        let (mut rng, mut compared) = (Rng::new(seed), Compared::new());
        for layout in LAYOUTS {
            let spec = every_byte(&mut rng, layout);
            for on_sheet in SHEETS {
                let alone = kept_alone(&spec, &on_sheet);
                for (sheet, records) in on_sheet.sheets() {
                    let case = format!("seed {seed}, {layout:?}, {:?}", on_sheet.lines);
                    compared.case(&case);
                    let answers = release(&mut compared, &mut rng, &spec.bytes(), &sheet);
                    let [(numbers, out), (_, exact), _] = &answers;
                    let due = released(&spec, alone.points.len(), records);
                    assert_eq!(*numbers, due, "{case}");
                    assert!(exact.ends_with(&alone.points.concat()), "{case}");
                    assert_eq!(*out, [exact.as_slice(), &[0; MORE]].concat(), "{case}");
                    let again = release(&mut compared, &mut rng, &alone.bytes(), &sheet);
                    assert_eq!(again, answers, "{case}");
                }
            }
        }
    }
}

#[test]
fn a_point_by_itself_is_kept_or_not_as_it_is_among_others() {
    let (mut rng, mut compared) = (Rng::new(FIXED_SEED), Compared::new());
    let mut reached = [0; 2];
    for (format, size) in formats() {
        for byte in 0..=255 {
            let spec = FileSpec {
                points: vec![random_point_of(&mut rng, size, byte)],
                ..FileSpec::bare(format)
            };
            for on_sheet in SHEETS {
                let kept = usize::from(on_sheet.keeps(byte));
                let [(sheet, _), _] = on_sheet.sheets();
                let case = format!("format {format}, byte {byte}, {:?}", on_sheet.lines);
                compared.case(&case);
                let before = vec![0xEE; 227 + usize::from(size)];
                let (numbers, out) = compared.release(&spec.bytes(), &sheet, &before);
                let length = (227 + kept * usize::from(size)) as u64;
                assert_eq!((numbers.number, numbers.length), (0, length), "{case}");
                assert_eq!(numbers.points, kept as u64, "{case}");
                let zeros = vec![0; size.into()];
                let due = if kept == 1 { &spec.points[0] } else { &zeros };
                assert_eq!(out[227..], *due, "{case}");
                reached[kept] += 1;
            }
        }
    }
    // Of 28 sheets and 256 bytes in four formats.
    assert_eq!(reached, [25_120, 3_552]);
}

#[test]
fn key_points_on_the_ground_go_out_with_the_ground_and_withheld_ones_stay() {
    let mut compared = Compared::new();
    let ground = [0x4B, 0x53, 1, 2, 2];
    for (format, size) in formats() {
        let points = [2, 66, 130].map(|byte| vec![byte; size.into()]);
        let spec = FileSpec {
            points: points.to_vec(),
            ..FileSpec::bare(format)
        };
        let length = 227 + 2 * usize::from(size);
        let (numbers, out) = compared.release(&spec.bytes(), &ground, &vec![0xEE; length]);
        let due = Released {
            number: 0,
            length: length as u64,
            points: 2,
            records: 0,
        };
        assert_eq!(numbers, due);
        assert_eq!(out[227..], points[..2].concat());
    }
}

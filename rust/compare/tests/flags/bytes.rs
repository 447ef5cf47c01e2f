//! Every classification byte, read and written back.

use compare::answers::Point;
use compare::compared::Compared;
use compare::rng::{Rng, seeds};
use compare::spec::{CLASSIFICATION, LAYOUTS, POINT_SIZES};

use super::table::{all_parts, every_byte, parts_of, with_parts};

#[test]
fn every_byte_is_read_as_its_parts_and_nothing_else_depends_on_it() {
    for seed in seeds() {
        let (mut rng, mut compared) = (Rng::new(seed), Compared::new());
        for layout in LAYOUTS {
            let spec = every_byte(&mut rng, layout);
            let (format, length) = (spec.format, spec.record_length);
            for (bytes, parts) in spec.points.iter().zip(all_parts()) {
                compared.case(format!("seed {seed}, {layout:?}, {bytes:?}"));
                let point = compared.decode(format, length, bytes);
                assert_eq!((point.number, parts_of(&point)), (0, parts));
                let mut other = bytes.clone();
                other[CLASSIFICATION] = 0;
                let other = compared.decode(format, length, &other);
                assert_eq!(with_parts(&other, parts), point);
            }
        }
    }
}

#[test]
fn every_byte_in_a_file_is_read_as_it_is_alone() {
    for seed in seeds() {
        let (mut rng, mut compared) = (Rng::new(seed), Compared::new());
        for layout in LAYOUTS {
            let spec = every_byte(&mut rng, layout);
            let (file, length) = (spec.bytes(), spec.record_length);
            for (index, (bytes, parts)) in spec.points.iter().zip(all_parts()).enumerate() {
                compared.case(format!("seed {seed}, {layout:?}, point {index}"));
                let point = compared.point_at(&file, index as u64);
                let place = (spec.point_offset() + index * usize::from(length)) as u64;
                let alone = compared.decode(spec.format, length, bytes);
                assert_eq!(point, Point { place, ..alone });
                assert_eq!(parts_of(&point), parts);
            }
        }
    }
}

#[test]
fn every_byte_is_written_back_and_extra_bytes_stay() {
    for seed in seeds() {
        let (mut rng, mut compared) = (Rng::new(seed), Compared::new());
        for layout in LAYOUTS {
            let spec = every_byte(&mut rng, layout);
            let (format, length) = (spec.format, spec.record_length);
            let size = usize::from(POINT_SIZES[usize::from(format)]);
            for (byte, bytes) in spec.points.iter().enumerate() {
                compared.case(format!("seed {seed}, {layout:?}, byte {byte}"));
                let point = compared.decode(format, length, bytes);
                let before = rng.bytes(length.into());
                let written = compared.encode(format, length, &point, &before);
                let due = [&bytes[..size], &before[size..]].concat();
                assert_eq!(written, (0, due), "byte {byte}");
            }
        }
    }
}

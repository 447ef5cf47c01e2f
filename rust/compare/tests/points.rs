//! One point of a file, decoding, encoding, coordinates.

use compare::answers::Point;
use compare::compared::{Compared, Function};
use compare::damage::{random_double_bits, spoil};
use compare::rng::{Rng, seeds};
use compare::spec::{
    FileSpec, POINT_SIZES, as_decoded, projection, random_fields, random_offset, random_point,
    random_scale,
};

#[test]
fn a_point_of_a_file_is_read_at_its_place() {
    for seed in seeds() {
        let mut rng = Rng::new(seed);
        let mut compared = Compared::new();
        for round in 0..2500 {
            let spec = FileSpec::random(&mut rng);
            let file = spec.bytes();
            compared.case(format!("seed {seed}, file {round}"));
            for (index, bytes) in spec.points.iter().enumerate() {
                let point = compared.point_at(&file, index as u64);
                let place = spec.point_offset() + index * usize::from(spec.record_length);
                let alone = compared.decode(spec.format, spec.record_length, bytes);
                assert_eq!(point.place, place as u64);
                assert_eq!(Point { place: 0, ..point }, alone);
            }
        }
    }
}

#[test]
fn number_11_is_given_from_the_number_of_points_on() {
    let mut compared = Compared::new();
    for format in 0..4 {
        for count in [0, 1, 2, 7] {
            let spec = FileSpec {
                records: vec![projection(7, vec![0; 9])],
                points: vec![vec![9; POINT_SIZES[usize::from(format)].into()]; count],
                trailing: vec![1; 400],
                ..FileSpec::bare(format)
            };
            let count = count as u64;
            let far = [
                count,
                count + 1,
                1 << 32,
                (1 << 32) + 1,
                1 << 63,
                1 << 59,
                u64::MAX,
            ];
            for index in far {
                compared.case(format!("index {index} of {count}"));
                assert_eq!(compared.point_at(&spec.bytes(), index).number, 11);
            }
            for index in 0..count {
                assert_eq!(compared.point_at(&spec.bytes(), index).number, 0);
            }
            for number in 1..=10 {
                let mut file = spec.bytes();
                spoil(&mut file, number);
                assert_eq!(compared.point_at(&file, count).number, number);
            }
        }
    }
    compared.assert_all_reached(&[Function::PointAt]);
}

#[test]
fn number_12_is_given_exactly_for_lengths_and_formats_that_do_not_fit() {
    let mut rng = Rng::new(12);
    let mut compared = Compared::new();
    let lengths = [0, 1, 19, 20, 21, 25, 26, 27, 28, 29, 33, 34, 35, 300, 65535];
    for format in [0, 1, 2, 3, 4, 5, 127, 128, 129, 131, 255] {
        for record_length in lengths {
            let size = POINT_SIZES.get(usize::from(format));
            let fits = size.is_some_and(|&size| record_length >= size);
            let exact = usize::from(record_length);
            for given in [exact, exact.saturating_sub(1), exact + 1, 0, exact + 65536] {
                let number = if fits && given == exact { 0 } else { 12 };
                let bytes = rng.bytes(given);
                compared.case(format!("format {format}, {record_length}, given {given}"));
                assert_eq!(
                    compared.decode(format, record_length, &bytes).number,
                    number
                );
                let fields = random_fields(&mut rng);
                assert_eq!(
                    compared.encode(format, record_length, &fields, &bytes).0,
                    number
                );
                let large = Point {
                    returns: 8,
                    ..fields
                };
                let number = if number == 0 { 13 } else { 12 };
                assert_eq!(
                    compared.encode(format, record_length, &large, &bytes).0,
                    number
                );
            }
        }
    }
    compared.assert_all_reached(&[Function::Decode, Function::Encode]);
}

#[test]
fn number_13_is_given_for_returns_exactly_above_7() {
    let mut rng = Rng::new(13);
    let mut compared = Compared::new();
    for (format, size) in POINT_SIZES.into_iter().enumerate() {
        for return_number in 0..=255 {
            for returns in [0, 1, 7, 8, 9, 15, 16, 64, 128, return_number, 255] {
                let fields = Point {
                    return_number,
                    returns,
                    ..random_fields(&mut rng)
                };
                let number = if return_number > 7 || returns > 7 {
                    13
                } else {
                    0
                };
                let before = rng.bytes(size.into());
                compared.case(format!(
                    "format {format}, return {return_number} of {returns}"
                ));
                let (given, _) = compared.encode(format as u8, size, &fields, &before);
                assert_eq!(given, number);
            }
        }
    }
}

#[test]
fn fields_come_back_from_their_bytes_and_extra_bytes_stay() {
    for seed in seeds() {
        let mut rng = Rng::new(seed);
        let mut compared = Compared::new();
        for round in 0..20_000 {
            let format = rng.below(4) as u8;
            let size = POINT_SIZES[usize::from(format)];
            let record_length = size + rng.below(12) as u16;
            let fields = random_fields(&mut rng);
            let before = rng.bytes(record_length.into());
            compared.case(format!("seed {seed}, point {round}"));
            let (number, room) = compared.encode(format, record_length, &fields, &before);
            assert_eq!(number, 0);
            assert_eq!(room[size.into()..], before[size.into()..]);
            let decoded = compared.decode(format, record_length, &room);
            assert_eq!(decoded, as_decoded(format, &fields));
        }
    }
}

#[test]
fn bytes_come_back_from_their_fields() {
    for seed in seeds() {
        let mut rng = Rng::new(seed);
        let mut compared = Compared::new();
        for round in 0..20_000 {
            let format = rng.below(4) as u8;
            let size = POINT_SIZES[usize::from(format)];
            let mut bytes = random_point(&mut rng, size);
            bytes[14] = round as u8;
            compared.case(format!("seed {seed}, point {round}"));
            let fields = compared.decode(format, size, &bytes);
            let junk = rng.bytes(size.into());
            assert_eq!(compared.encode(format, size, &fields, &junk), (0, bytes));
        }
    }
}

#[test]
fn fields_that_a_format_lacks_are_not_looked_at() {
    let mut rng = Rng::new(3);
    let mut compared = Compared::new();
    for (format, size) in POINT_SIZES.into_iter().enumerate() {
        let format = format as u8;
        for _ in 0..200 {
            let fields = random_fields(&mut rng);
            let other = Point {
                number: rng.next(),
                place: rng.next(),
                ..as_decoded(format, &fields)
            };
            let room = rng.bytes(size.into());
            let first = compared.encode(format, size, &fields, &room);
            assert_eq!(compared.encode(format, size, &other, &room), first);
        }
    }
}

#[test]
fn coordinates_have_equal_bits_for_any_bits() {
    let edges = [
        i32::MIN,
        i32::MIN + 1,
        -3,
        -1,
        0,
        1,
        3,
        i32::MAX - 1,
        i32::MAX,
    ];
    for seed in seeds() {
        let mut rng = Rng::new(seed);
        let mut compared = Compared::new();
        for _ in 0..200_000 {
            let stored = if rng.chance(30) {
                rng.pick(&edges)
            } else {
                rng.next() as i32
            };
            let any = (random_double_bits(&mut rng), random_double_bits(&mut rng));
            let sound = (
                random_scale(&mut rng).to_bits(),
                random_offset(&mut rng).to_bits(),
            );
            let wild = (rng.next(), rng.next());
            for (scale, offset) in [any, sound, wild, (any.0, sound.1), (sound.0, any.1)] {
                compared.coordinate(stored, scale, offset);
            }
        }
    }
}

#[test]
fn a_coordinate_that_is_not_a_number_has_one_pattern_of_bits() {
    let mut compared = Compared::new();
    let infinity = f64::INFINITY.to_bits();
    let (nan, one) = (0xFFF0_0000_0000_0001, 1f64.to_bits());
    let minus = f64::NEG_INFINITY.to_bits();
    for (stored, scale, offset) in [
        (0, infinity, one),
        (1, nan, one),
        (1, one, nan),
        (0, nan, nan),
        (1, infinity, minus),
        (-1, infinity, infinity),
    ] {
        assert_eq!(
            compared.coordinate(stored, scale, offset),
            0x7FF8_0000_0000_0000
        );
    }
}

#[test]
fn coordinates_are_exact_for_powers_of_two_and_whole_offsets() {
    for seed in seeds() {
        let mut rng = Rng::new(seed);
        let mut compared = Compared::new();
        for _ in 0..50_000 {
            let k = rng.below(11) as u32;
            let any = rng.next() as i32;
            let stored = rng.pick(&[i32::MIN, i32::MAX, 0, -1, any]);
            let whole = match rng.below(4) {
                0 => 1 << 40,
                1 => -(1 << 40),
                2 => rng.next() as i64 >> 24,
                _ => i64::from(rng.next() as i32),
            };
            assert!(whole.abs() <= 1 << 40);
            let scale = 2f64.powi(-(k as i32)).to_bits();
            let bits = compared.coordinate(stored, scale, (whole as f64).to_bits());
            let scaled = f64::from_bits(bits) * 2f64.powi(k as i32);
            assert_eq!(scaled as i64, i64::from(stored) + (whole << k));
            assert_eq!(scaled.fract(), 0.0);
        }
    }
}

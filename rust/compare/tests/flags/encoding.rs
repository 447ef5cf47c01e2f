//! Class and flags joined to one byte, and 13 for a class that has no room in it.

use std::collections::BTreeMap;

use compare::answers::Point;
use compare::compared::{Compared, Function};
use compare::rng::{Rng, seeds};
use compare::spec::{CLASSIFICATION, LAYOUTS, POINT_SIZES, as_decoded, random_fields};

use super::table::{Parts, all_parts, formats, with_parts};

/// Every class of one byte with all flags.
fn classes_with_flags() -> impl Iterator<Item = Parts> {
    let flags = all_parts().into_iter().step_by(32);
    flags.flat_map(|[_, synthetic, key_point, withheld]| {
        (0..=255).map(move |class| [class, synthetic, key_point, withheld])
    })
}

#[test]
fn every_class_with_all_flags_is_joined_up_to_31_and_gives_13_above() {
    let all_parts = all_parts();
    for seed in seeds() {
        let (mut rng, mut compared) = (Rng::new(seed), Compared::new());
        for (format, extra) in LAYOUTS {
            let length = POINT_SIZES[usize::from(format)] + extra;
            for parts in classes_with_flags() {
                let fields = with_parts(&random_fields(&mut rng), parts);
                let before = rng.bytes(length.into());
                compared.case(format!("seed {seed}, format {format}, {fields:?}"));
                let (number, room) = compared.encode(format, length, &fields, &before);
                if parts[0] > 31 {
                    assert_eq!((number, room), (13, before));
                    continue;
                }
                assert_eq!(number, 0);
                assert_eq!(all_parts[usize::from(room[CLASSIFICATION])], parts);
                let decoded = compared.decode(format, length, &room);
                assert_eq!(decoded, as_decoded(format, &fields));
            }
        }
    }
}

#[test]
fn number_12_comes_before_13_for_a_class() {
    let (mut rng, mut compared) = (Rng::new(12), Compared::new());
    for (format, size) in formats() {
        let exact = usize::from(size);
        let wrong = [
            (format, size, exact - 1),
            (format, size, exact + 1),
            (format, size, 0),
            (format, size - 1, exact - 1),
            (format + 4, size, exact),
            (255, size, exact),
        ];
        for parts in classes_with_flags() {
            let fields = with_parts(&random_fields(&mut rng), parts);
            for (format, length, room) in wrong {
                compared.case(format!("format {format}, {length}, {room}, {parts:?}"));
                let before = rng.bytes(room);
                let written = compared.encode(format, length, &fields, &before);
                assert_eq!(written, (12, before));
            }
            let number = if parts[0] > 31 { 13 } else { 0 };
            let before = rng.bytes(exact);
            assert_eq!(compared.encode(format, size, &fields, &before).0, number);
        }
    }
    compared.assert_all_reached(&[Function::Encode]);
}

#[test]
fn any_byte_but_0_is_a_yes_for_each_flag() {
    let (mut rng, mut compared) = (Rng::new(1), Compared::new());
    for (format, size) in formats() {
        for value in 0..=255u8 {
            let flag = u8::from(value != 0);
            for (parts, joined) in [
                ([2, value, 0, 0], 2 + 32 * flag),
                ([2, 0, value, 0], 2 + 64 * flag),
                ([2, 0, 0, value], 2 + 128 * flag),
                ([31, value, 0x80, 2], 31 + 192 + 32 * flag),
                ([0, 0xFF, value, 0x80], 160 + 64 * flag),
                ([17, 2, 0xFF, value], 17 + 96 + 128 * flag),
                ([30, value, value, value], 30 + 224 * flag),
            ] {
                let fields = with_parts(&random_fields(&mut rng), parts);
                compared.case(format!("format {format}, {parts:?}"));
                let (number, room) =
                    compared.encode(format, size, &fields, &vec![0xEE; size.into()]);
                assert_eq!((number, room[CLASSIFICATION]), (0, joined), "{parts:?}");
            }
        }
    }
}

/// Return numbers and numbers of returns, and classes, on both sides of their edges.
const RETURNS: [u8; 6] = [0, 6, 7, 8, 9, 255];
const CLASSES: [u8; 8] = [0, 30, 31, 32, 33, 63, 128, 255];

/// Every return number, number of returns and class of these.
fn edges() -> impl Iterator<Item = [u8; 3]> {
    let number_and_returns = RETURNS.map(|number| RETURNS.map(|returns| [number, returns]));
    let pairs = number_and_returns.into_iter().flatten();
    pairs.flat_map(|[number, returns]| CLASSES.map(|class| [number, returns, class]))
}

#[test]
fn each_field_that_is_too_large_gives_13_alone_and_with_others() {
    let (mut rng, mut compared) = (Rng::new(13), Compared::new());
    let mut reached = BTreeMap::new();
    for (format, size) in formats() {
        for [return_number, returns, classification] in edges() {
            let fields = Point {
                return_number,
                returns,
                classification,
                ..random_fields(&mut rng)
            };
            let large = [return_number > 7, returns > 7, classification > 31];
            let number = if large.contains(&true) { 13 } else { 0 };
            let before = rng.bytes(size.into());
            compared.case(format!("format {format}, {fields:?}"));
            let (given, room) = compared.encode(format, size, &fields, &before);
            assert_eq!(given, number, "{fields:?}");
            assert_eq!(room == before, number == 13);
            let short = &before[1..];
            assert_eq!(compared.encode(format, size, &fields, short).0, 12);
            *reached.entry(large).or_insert(0) += 1;
        }
    }
    // In each of four formats 3 of 6 return numbers and numbers of returns are too large, and 5 of 8 classes.
    for (large, times) in &reached {
        let classes = if large[2] { 5 } else { 3 };
        assert_eq!(*times, 4 * 3 * 3 * classes, "{large:?}");
    }
    assert_eq!(reached.len(), 8);
    compared.assert_all_reached(&[Function::Encode]);
}

#[test]
fn random_fields_come_back_or_give_13() {
    for seed in seeds() {
        let (mut rng, mut compared) = (Rng::new(seed), Compared::new());
        let mut reached = [0; 2];
        for round in 0..20_000 {
            let (format, extra) = rng.pick(&LAYOUTS);
            let length = POINT_SIZES[usize::from(format)] + extra;
            let mut fields = random_fields(&mut rng);
            if rng.chance(50) {
                fields.classification = rng.byte();
            }
            let before = rng.bytes(length.into());
            compared.case(format!("seed {seed}, point {round}"));
            let (number, room) = compared.encode(format, length, &fields, &before);
            let large = fields.classification > 31;
            reached[usize::from(large)] += 1;
            if large {
                assert_eq!((number, room), (13, before));
            } else {
                let decoded = compared.decode(format, length, &room);
                assert_eq!((number, decoded), (0, as_decoded(format, &fields)));
            }
        }
        assert!(reached.iter().all(|&times| times > 5000), "{reached:?}");
    }
}

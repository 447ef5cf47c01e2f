//! The keep sheet: the numbers 20 to 24, and what a sheet keeps.

use compare::compared::Compared;
use compare::damage::damage_sheet;
use compare::rng::{Rng, seeds};
use compare::sheet_calls::{SHEET_FUNCTIONS, call_all};
use compare::sheet_ends::ENDS;
use compare::spec::{
    BoxSpec, LineSpec, RECORD_IDS, RecordSpec, SheetSpec, USER_IDS, padded, with_tail,
};

/// So many lines, of each kind in turn.
fn lines(count: usize) -> Vec<u8> {
    let kinds = [
        LineSpec::Classes(2, 3),
        LineSpec::Record(padded(b"user"), 7),
        LineSpec::Box(BoxSpec::WHOLE),
    ];
    let lines = kinds.iter().cycle().take(count);
    lines.flat_map(LineSpec::bytes).collect()
}

#[test]
fn each_sheet_number_is_given_on_its_side_of_the_boundary() {
    let mut compared = Compared::new();
    for before in [0, 1, 2, 3, 62, 63] {
        for (end, number) in ENDS {
            compared.case(format!("{before} lines, then {end:?}"));
            let sheet = [lines(before).as_slice(), end].concat();
            assert_eq!(call_all(&mut compared, &sheet), number);
        }
    }
    assert_eq!(call_all(&mut compared, &lines(65)), 24);
    compared.assert_all_reached(&SHEET_FUNCTIONS);
}

#[test]
fn number_24_is_given_when_a_65th_line_begins_whatever_it_is() {
    let mut compared = Compared::new();
    for (count, number) in [(63, 0), (64, 0), (65, 24), (70, 24)] {
        assert_eq!(
            call_all(&mut compared, &lines(count)),
            number,
            "{count} lines"
        );
    }
    for end in [
        b"K".as_slice(),
        b"\0",
        b"KS",
        b"KT\x01",
        b"KS\x09",
        b"KS\x03",
        b"KS\x01\x03\x02",
    ] {
        let sheet = [lines(64).as_slice(), end].concat();
        assert_eq!(
            call_all(&mut compared, &sheet),
            24,
            "64 lines, then {end:?}"
        );
    }
}

#[test]
fn every_kind_byte_and_every_mark_but_the_right_ones_is_refused() {
    let mut compared = Compared::new();
    for byte in 0..=255u8 {
        let body = [2; 20];
        let kind = [&[0x4B, 0x53, byte], body.as_slice()].concat();
        let number = match byte {
            1 => 20, // the body's next line has a wrong mark
            2 => 22, // two bytes are left over
            3 => 22, // four bytes are missing
            _ => 21,
        };
        assert_eq!(call_all(&mut compared, &kind), number, "kind {byte}");
        for mark in [[byte, 0x53], [0x4B, byte]] {
            let number = if mark == [0x4B, 0x53] { 0 } else { 20 };
            let sheet = [mark.as_slice(), &[1, 2, 2]].concat();
            assert_eq!(call_all(&mut compared, &sheet), number, "mark {mark:?}");
        }
    }
}

#[test]
fn the_first_bad_line_gives_its_number() {
    let mut compared = Compared::new();
    let bad: [(&[u8], u64); 3] = [(b"KT\x01", 20), (b"KS\x05", 21), (b"KS\x01\x03\x02", 23)];
    for (first, number) in bad {
        for (second, _) in bad {
            for between in [0, 1, 67] {
                let sheet = [lines(2).as_slice(), first, &lines(between), second].concat();
                assert_eq!(call_all(&mut compared, &sheet), number);
            }
        }
    }
}

#[test]
fn every_range_of_classes_keeps_exactly_its_classes() {
    let mut compared = Compared::new();
    for low in 0..=255u8 {
        for high in 0..=255u8 {
            let sheet = LineSpec::Classes(low, high).bytes();
            let number = if low > high { 23 } else { 0 };
            let around = [
                low.wrapping_sub(1),
                low,
                low.wrapping_add(1),
                high,
                high.wrapping_add(1),
            ];
            for class in around {
                let kept = compared.class_kept(&sheet, class);
                let expected = u64::from((low..=high).contains(&class));
                assert_eq!((kept.number, kept.kept), (number, expected));
            }
        }
    }
}

#[test]
fn random_sheets_keep_the_classes_of_their_lines() {
    for seed in seeds() {
        let mut rng = Rng::new(seed);
        let mut compared = Compared::new();
        for round in 0..600 {
            let spec = SheetSpec::random(&mut rng);
            let sheet = spec.bytes();
            compared.case(format!("seed {seed}, sheet {round}"));
            assert_eq!(compared.check_sheet(&sheet), 0);
            for class in 0..=255 {
                let kept = compared.class_kept(&sheet, class).kept;
                assert_eq!(kept, u64::from(spec.keeps_class(class)));
            }
        }
    }
}

#[test]
fn random_sheets_keep_the_records_of_their_lines() {
    for seed in seeds() {
        let mut rng = Rng::new(seed);
        let mut compared = Compared::new();
        for round in 0..600 {
            let spec = SheetSpec::random(&mut rng);
            compared.case(format!("seed {seed}, sheet {round}"));
            for name in USER_IDS {
                for record_id in RECORD_IDS {
                    let mut record = RecordSpec::random(&mut rng);
                    (record.user, record.record_id) = (with_tail(&mut rng, name), record_id);
                    let kept = compared.record_kept(&spec.bytes(), &record.user, record_id);
                    assert_eq!(kept.kept, u64::from(spec.keeps_record(&record)));
                }
            }
        }
    }
}

#[test]
fn user_ids_of_any_length_are_cut_and_compared_whole() {
    let mut compared = Compared::new();
    let full = LineSpec::Record(*b"sixteen letters!", 7).bytes();
    let tailed = LineSpec::Record(*b"user\0and a tail.", 7).bytes();
    let empty = LineSpec::Record(*b"\0fifteen behind.", 7).bytes();
    let cases: [(&[u8], &[u8], u64); 17] = [
        (&full, b"sixteen letters!", 1),
        (&full, b"sixteen letters!\0", 1),
        (&full, b"sixteen letters!\0more", 1),
        (&full, b"sixteen letters!!", 0),
        (&full, b"sixteen letters", 0),
        (&full, b"sixteen letters\0", 0),
        (&full, b"", 0),
        (&tailed, b"user", 1),
        (&tailed, b"user\0", 1),
        (&tailed, b"user\0another tail that is longer", 1),
        (&tailed, b"use", 0),
        (&tailed, b"user ", 1),
        (&tailed, b"user\x01and a tail.", 0),
        (&empty, b"", 1),
        (&empty, b"\0", 1),
        (&empty, b"\0\0anything", 1),
        (&empty, b" ", 1),
    ];
    for (sheet, user, kept) in cases {
        compared.case(format!("{user:?}"));
        assert_eq!(compared.record_kept(sheet, user, 7).kept, kept, "{user:?}");
        for other in [6, 8, 7 + 256, 0x0700] {
            assert_eq!(compared.record_kept(sheet, user, other).kept, 0);
        }
    }
}

#[test]
fn damaged_sheets_give_equal_numbers() {
    for seed in seeds() {
        let mut rng = Rng::new(seed);
        let mut compared = Compared::new();
        for round in 0..6000 {
            let mut sheet = SheetSpec::random(&mut rng).bytes();
            compared.case(format!("seed {seed}, sheet {round}"));
            damage_sheet(&mut rng, &mut sheet);
            call_all(&mut compared, &sheet);
        }
        compared.assert_all_reached(&SHEET_FUNCTIONS);
    }
}

//! Box lines that do not pass, and lines of other kinds: each number on its side of the boundary, and their order.

use compare::compared::Compared;
use compare::sheet_calls::{SHEET_FUNCTIONS, call_all};
use compare::spec::{BoxSpec, LineSpec};

/// The bytes of a whole line.
const WHOLE: usize = 27;

fn line(low: [i32; 3], high: [i32; 3]) -> Vec<u8> {
    LineSpec::Box(BoxSpec::new(low, high)).bytes()
}

/// So many good lines: one for a class, then boxes.
fn good(lines: usize) -> Vec<u8> {
    let class = [0x4B, 0x53, 1, 2, 2];
    match lines.checked_sub(1) {
        None => Vec::new(),
        Some(boxes) => [class.to_vec(), line([2; 3], [2; 3]).repeat(boxes)].concat(),
    }
}

#[test]
fn a_box_cut_at_any_length_gives_22_whatever_its_values_are() {
    let mut compared = Compared::new();
    let values = [
        (line([7; 3], [7; 3]), 0),
        (line([i32::MIN; 3], [i32::MAX; 3]), 0),
        // 22 comes before 23: a cut box is not looked at.
        (line([8; 3], [7; 3]), 23),
        (line([i32::MAX; 3], [i32::MIN; 3]), 23),
        (line([8, 7, 7], [7; 3]), 23),
    ];
    for (box_line, whole) in values {
        assert_eq!(box_line.len(), WHOLE);
        for before in [0, 1, 2, 63] {
            for length in 1..=WHOLE {
                compared.case(format!("{before} lines, then {:?}", &box_line[..length]));
                let sheet = [&good(before), &box_line[..length]].concat();
                let number = if length < WHOLE { 22 } else { whole };
                assert_eq!(call_all(&mut compared, &sheet), number, "{length} bytes");
            }
        }
    }
}

/// Values in rising order.
const VALUES: [i32; 14] = [
    i32::MIN,
    i32::MIN + 1,
    -65_537,
    -65_536,
    -256,
    -255,
    -1,
    0,
    1,
    255,
    256,
    0xFF_FFFF,
    i32::MAX - 1,
    i32::MAX,
];

#[test]
fn a_low_value_above_the_high_one_gives_23_on_each_axis_alone() {
    let mut compared = Compared::new();
    for axis in 0..3 {
        for (low_at, low) in VALUES.into_iter().enumerate() {
            for (high_at, high) in VALUES.into_iter().enumerate() {
                for [other_low, other_high] in [[0, 0], [i32::MIN, i32::MAX], [-1, 1]] {
                    let (mut lows, mut highs) = ([other_low; 3], [other_high; 3]);
                    (lows[axis], highs[axis]) = (low, high);
                    compared.case(format!("axis {axis}, {low} to {high}"));
                    let number = if low_at > high_at { 23 } else { 0 };
                    let sheet = line(lows, highs);
                    assert_eq!(
                        call_all(&mut compared, &sheet),
                        number,
                        "{lows:?} {highs:?}"
                    );
                }
            }
        }
    }
}

#[test]
fn kinds_0_and_4_and_up_give_21_with_and_without_a_body() {
    let mut compared = Compared::new();
    for kind in 0..=255u8 {
        for length in [0, 1, 2, 3, 17, 18, 23, 24, 25, 100] {
            let sheet = [&[0x4B, 0x53, kind], vec![2; length].as_slice()].concat();
            compared.case(format!("kind {kind} and {length} bytes"));
            let number = match (kind, length) {
                (1, 0 | 1) => 22,
                (1, 2) => 0,
                (1, 3) => 22,
                (2, 0..18) | (3, 0..24) => 22,
                (2, 18) | (3, 24) => 0,
                // What is left is no line: too few bytes for one, or without a mark.
                (3, 25) => 22,
                (1..=3, _) => 20,
                _ => 21,
            };
            assert_eq!(
                call_all(&mut compared, &sheet),
                number,
                "kind {kind}, {length} bytes"
            );
        }
    }
}

/// Lines with one fault or two, and the number that comes first.
#[test]
fn numbers_come_in_the_order_22_20_21_22_23() {
    let mut compared = Compared::new();
    let reversed = line([1; 3], [0; 3]);
    let with = |place: usize, byte: u8, length: usize| {
        let mut line = reversed[..length].to_vec();
        line[place] = byte;
        line
    };
    for (fault, number) in [
        // Fewer than three bytes, also with a wrong mark.
        (with(0, b'k', 2), 22),
        (with(1, b'T', 2), 22),
        // A wrong mark, also before an unknown kind, a cut body and a reversed box.
        (with(1, b'T', 3), 20),
        (with(0, b'k', WHOLE), 20),
        (b"KT\x04".to_vec(), 20),
        // An unknown kind, also before a cut body and a reversed box.
        (with(2, 4, 3), 21),
        (with(2, 0, 26), 21),
        (with(2, 255, WHOLE), 21),
        // A cut body, also of a reversed box.
        (with(3, 9, 26), 22),
        (with(3, 9, WHOLE), 23),
    ] {
        for before in [0, 1, 5, 63] {
            compared.case(format!("{before} lines, then {fault:?}"));
            let sheet = [good(before), fault.clone()].concat();
            assert_eq!(call_all(&mut compared, &sheet), number, "{fault:?}");
        }
    }
    assert_eq!(call_all(&mut compared, &good(64)), 0);
    assert_eq!(call_all(&mut compared, &good(65)), 24);
    compared.assert_all_reached(&SHEET_FUNCTIONS);
}

#[test]
fn of_several_lines_the_first_with_a_fault_gives_its_number() {
    let mut compared = Compared::new();
    let faults = [
        (line([0, 0, 1], [0; 3]), 23),
        (line([0, 1, 0], [0; 3]), 23),
        (b"KS\x01\x03\x02".to_vec(), 23),
        (b"KT\x03".to_vec(), 20),
        (b"KS\x04".to_vec(), 21),
    ];
    for (first, number) in &faults {
        for (second, _) in &faults {
            for between in [0, 1, 3, 66] {
                let sheet = [good(2), first.clone(), good(between), second.clone()].concat();
                compared.case(format!("{first:?}, {between} lines, {second:?}"));
                assert_eq!(call_all(&mut compared, &sheet), *number);
            }
        }
    }
}

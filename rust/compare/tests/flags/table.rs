//! What each classification byte means, and what sheets keep of them all.

use compare::answers::Point;
use compare::rng::Rng;
use compare::spec::{
    FileSpec, LineSpec, POINT_SIZES, RecordSpec, SheetSpec, padded, projection, random_point_of,
};

/// Formats with their sizes.
pub fn formats() -> impl Iterator<Item = (u8, u16)> {
    (0..).zip(POINT_SIZES)
}

/// The parts of a classification byte: the class, then 0 or 1 for synthetic, key point and withheld.
pub type Parts = [u8; 4];

/// The parts of each byte, from 0 to 255. The class counts up first, then the flags.
pub fn all_parts() -> Vec<Parts> {
    let mut all = Vec::new();
    for withheld in [0, 1] {
        for key_point in [0, 1] {
            for synthetic in [0, 1] {
                all.extend((0..32).map(|class| [class, synthetic, key_point, withheld]));
            }
        }
    }
    assert_eq!(all.len(), 256);
    all
}

pub fn parts_of(point: &Point) -> Parts {
    let flags = [point.synthetic, point.key_point, point.withheld];
    [point.classification, flags[0], flags[1], flags[2]]
}

/// The same point with these parts; flags may be given as any bytes.
pub fn with_parts(point: &Point, [class, synthetic, key_point, withheld]: Parts) -> Point {
    Point {
        classification: class,
        synthetic,
        key_point,
        withheld,
        ..*point
    }
}

/// A record that stands on sheets, and in the files of [`every_byte`].
fn record() -> RecordSpec {
    RecordSpec {
        user: padded(b"user"),
        ..projection(7, b"payload")
    }
}

/// A file with a point of each classification byte, in their order, and two records.
pub fn every_byte(rng: &mut Rng, (format, extra): (u8, u16)) -> FileSpec {
    let record_length = POINT_SIZES[usize::from(format)] + extra;
    FileSpec {
        record_length,
        records: vec![record(), projection(7, b"another")],
        points: (0..=255)
            .map(|byte| random_point_of(rng, record_length, byte))
            .collect(),
        ..FileSpec::bare(format)
    }
}

/// The lowest and the highest of a range.
type Range = (u8, u8);

/// The classes on a sheet, line by line, and the classification bytes of the points that it keeps.
pub struct OnSheet {
    pub lines: &'static [Range],
    pub kept: &'static [Range],
}

impl OnSheet {
    const fn new(lines: &'static [Range], kept: &'static [Range]) -> Self {
        Self { lines, kept }
    }

    /// Whether a line holds this class.
    pub fn holds(&self, class: u8) -> bool {
        within(self.lines, class)
    }

    /// Whether points of this classification byte are kept.
    pub fn keeps(&self, byte: u8) -> bool {
        within(self.kept, byte)
    }

    /// The sheet, and one with a line for a record around each of its own; with how many records of [`every_byte`] each
    /// keeps.
    pub fn sheets(&self) -> [(Vec<u8>, u64); 2] {
        let classes = |&(low, high): &Range| LineSpec::Classes(low, high);
        let lines: Vec<LineSpec> = self.lines.iter().map(classes).collect();
        let record = LineSpec::Record(record().user, record().record_id);
        let mut between = vec![record.clone()];
        for line in &lines {
            between.extend([line.clone(), record.clone()]);
        }
        [
            (SheetSpec::new(lines).bytes(), 0),
            (SheetSpec::new(between).bytes(), 1),
        ]
    }
}

fn within(ranges: &[Range], number: u8) -> bool {
    let holds = |&(low, high): &Range| low <= number && number <= high;
    ranges.iter().any(holds)
}

/// Sheets with ranges below, across and above 31.
pub const SHEETS: [OnSheet; 28] = [
    OnSheet::new(&[], &[]),
    OnSheet::new(&[(0, 0)], &[(0, 0), (32, 32), (64, 64), (96, 96)]),
    OnSheet::new(&[(2, 2)], &TWO),
    OnSheet::new(&[(5, 9)], &[(5, 9), (37, 41), (69, 73), (101, 105)]),
    OnSheet::new(&[(0, 30)], &[(0, 30), (32, 62), (64, 94), (96, 126)]),
    OnSheet::new(&[(1, 31)], &[(1, 31), (33, 63), (65, 95), (97, 127)]),
    OnSheet::new(&[(31, 31)], &THIRTY_ONE),
    OnSheet::new(&[(0, 31)], &NOT_WITHHELD),
    // Across 31.
    OnSheet::new(&[(31, 32)], &THIRTY_ONE),
    OnSheet::new(&[(31, 255)], &THIRTY_ONE),
    OnSheet::new(&[(2, 66)], &[(2, 31), (34, 63), (66, 95), (98, 127)]),
    OnSheet::new(&[(20, 200)], &[(20, 31), (52, 63), (84, 95), (116, 127)]),
    OnSheet::new(&[(0, 32)], &NOT_WITHHELD),
    OnSheet::new(&[(0, 255)], &NOT_WITHHELD),
    // Above 31.
    OnSheet::new(&[(32, 32)], &[]),
    OnSheet::new(&[(34, 34)], &[]),
    OnSheet::new(&[(40, 50)], &[]),
    OnSheet::new(&[(66, 66)], &[]),
    OnSheet::new(&[(98, 98)], &[]),
    OnSheet::new(&[(130, 130)], &[]),
    OnSheet::new(&[(127, 128)], &[]),
    OnSheet::new(&[(128, 255)], &[]),
    OnSheet::new(&[(255, 255)], &[]),
    OnSheet::new(&[(32, 255)], &[]),
    // Several lines.
    OnSheet::new(&[(66, 66), (2, 2), (130, 130)], &TWO),
    OnSheet::new(
        &[(6, 6), (2, 2)],
        &[
            (2, 2),
            (6, 6),
            (34, 34),
            (38, 38),
            (66, 66),
            (70, 70),
            (98, 98),
            (102, 102),
        ],
    ),
    OnSheet::new(
        &[(5, 9), (40, 50), (8, 12)],
        &[(5, 12), (37, 44), (69, 76), (101, 108)],
    ),
    OnSheet::new(&[(32, 255), (128, 255), (31, 40)], &THIRTY_ONE),
];

const TWO: [Range; 4] = [(2, 2), (34, 34), (66, 66), (98, 98)];
const THIRTY_ONE: [Range; 4] = [(31, 31), (63, 63), (95, 95), (127, 127)];
const NOT_WITHHELD: [Range; 1] = [(0, 127)];

#[test]
fn the_table_has_what_is_written_here() {
    let all = all_parts();
    for (byte, parts) in [
        (0, [0, 0, 0, 0]),
        (2, [2, 0, 0, 0]),
        (31, [31, 0, 0, 0]),
        (32, [0, 1, 0, 0]),
        (34, [2, 1, 0, 0]),
        (64, [0, 0, 1, 0]),
        (66, [2, 0, 1, 0]),
        (98, [2, 1, 1, 0]),
        (127, [31, 1, 1, 0]),
        (128, [0, 0, 0, 1]),
        (130, [2, 0, 0, 1]),
        (0xC8, [8, 0, 1, 1]),
        (0xE2, [2, 1, 1, 1]),
        (255, [31, 1, 1, 1]),
    ] {
        assert_eq!(all[byte], parts, "byte {byte}");
    }
}

#[test]
fn kept_points_are_those_of_a_class_on_the_sheet_that_are_not_withheld() {
    for sheet in SHEETS {
        for (byte, [class, _, _, withheld]) in (0..=255).zip(all_parts()) {
            let due = withheld == 0 && sheet.holds(class);
            assert_eq!(sheet.keeps(byte), due, "{:?}, byte {byte}", sheet.lines);
        }
    }
}

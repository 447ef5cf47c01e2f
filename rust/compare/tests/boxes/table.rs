//! Points at given places, sheets of class 2 and boxes, and releases of just the points that are due.

use compare::answers::{Line, Released};
use compare::compared::Compared;
use compare::rng::Rng;
use compare::rooms::{MORE, release};
use compare::spec::{
    BoxSpec, FileSpec, LineSpec, POINT_SIZES, SheetSpec, Stored, projection, put_place,
    random_point_of,
};

/// The class of all points here, but where others are asked for.
pub const CLASS: u8 = 2;

/// A point with this classification byte at a place; its other bytes are random.
pub fn point(rng: &mut Rng, record_length: u16, byte: u8, place: Stored) -> Vec<u8> {
    let mut point = random_point_of(rng, record_length, byte);
    put_place(&mut point, place);
    point
}

/// A file with a point of the class at each of these places, in their order, and a record.
pub fn file(rng: &mut Rng, (format, extra): (u8, u16), places: &[Stored]) -> FileSpec {
    let record_length = POINT_SIZES[usize::from(format)] + extra;
    FileSpec {
        record_length,
        records: vec![projection(7, b"payload")],
        points: places
            .iter()
            .map(|&place| point(rng, record_length, CLASS, place))
            .collect(),
        ..FileSpec::bare(format)
    }
}

/// Keeps the class in these boxes.
pub fn sheet(boxes: &[BoxSpec]) -> SheetSpec {
    let boxes = boxes.iter().copied().map(LineSpec::Box);
    let lines = [LineSpec::Classes(CLASS, CLASS)].into_iter().chain(boxes);
    SheetSpec::new(lines.collect::<Vec<_>>())
}

/// The same sheet without its boxes.
fn without_boxes(sheet: &SheetSpec) -> SheetSpec {
    let others = sheet
        .lines
        .iter()
        .filter(|line| !matches!(line, LineSpec::Box(_)));
    SheetSpec::new(others.cloned().collect::<Vec<_>>())
}

/// Releases and lists the file under a sheet for no records: exactly those points go out that are due. Counts, bins and
/// bounds are those of a file with no other points under the sheet without its boxes.
pub fn assert_kept(
    compared: &mut Compared,
    rng: &mut Rng,
    spec: &FileSpec,
    sheet: &SheetSpec,
    due: &[bool],
) {
    assert_eq!(spec.points.len(), due.len());
    let kept = spec.points.iter().zip(due).filter(|(_, due)| **due);
    let alone = FileSpec {
        points: kept.map(|(point, _)| point.clone()).collect(),
        ..spec.clone()
    };
    let released = alone.points.concat();
    let answers = release(compared, rng, &spec.bytes(), &sheet.bytes());
    let [(numbers, out), (_, exact), _] = &answers;
    let wanted = Released {
        number: 0,
        length: 227 + released.len() as u64,
        points: alone.points.len() as u64,
        records: 0,
    };
    assert_eq!(*numbers, wanted, "{sheet:?}");
    assert!(exact[227..] == released, "{sheet:?}");
    assert!(*out == [exact.as_slice(), &[0; MORE]].concat(), "{sheet:?}");
    let classes = without_boxes(sheet).bytes();
    let again = release(compared, rng, &alone.bytes(), &classes);
    assert!(again == answers, "{sheet:?}");
    assert_listed(compared, spec, sheet, due);
}

/// The list has a line for each point that is due, and no other.
fn assert_listed(compared: &mut Compared, spec: &FileSpec, sheet: &SheetSpec, due: &[bool]) {
    let places = (spec.point_offset()..).step_by(spec.record_length.into());
    let line = |place: usize| Line {
        place: place as u64,
        length: spec.record_length.into(),
    };
    let kept = places.zip(due).filter(|(_, due)| **due);
    let lines: Vec<Line> = kept.map(|(place, _)| line(place)).collect();
    let before = vec![Line::default(); due.len()];
    let (answer, list) = compared.cutting_list(&spec.bytes(), &sheet.bytes(), &before);
    assert_eq!((answer.number, answer.lines), (0, lines.len() as u64));
    assert_eq!(list[..lines.len()], lines, "{sheet:?}");
}

//! Random sheets: of any lines, and of lines around one that answers.

use compare::answers::ClassLine;
use compare::compared::Compared;
use compare::rng::{Rng, seeds};
use compare::spec::{BoxSpec, LineSpec, SheetSpec};

use super::table::{ask, held_by, held_by_none};

/// The answer of these lines.
fn due(lines: &[LineSpec], class: u8) -> ClassLine {
    let first = lines.iter().position(|line| line.holds_class(class));
    first.map_or(held_by_none(lines.len()), |before| held_by(before + 1))
}

/// A name for how lines stand for a class, and whether they stand so.
type Kind = (&'static str, fn(&[LineSpec], u8) -> bool);

const KINDS: [Kind; 7] = [
    ("no line at all", |lines, _| lines.is_empty()),
    ("none holds it", |lines, class| {
        !lines.is_empty() && holding(lines, class) == 0
    }),
    ("the first holds it", |lines, class| {
        lines.first().is_some_and(|line| line.holds_class(class))
    }),
    ("the last alone holds it", |lines, class| {
        holding(lines, class) == 1 && lines.last().is_some_and(|line| line.holds_class(class))
    }),
    ("several hold it", |lines, class| holding(lines, class) > 1),
    ("it is held behind a line for records", |lines, class| {
        holding(lines, class) > 0 && matches!(lines[0], LineSpec::Record(..))
    }),
    ("it is held behind a box", |lines, class| {
        let first = lines.iter().position(|line| line.holds_class(class));
        let mut before = lines[..first.unwrap_or(0)].iter();
        before.any(|line| matches!(line, LineSpec::Box(_)))
    }),
];

/// How many of the lines hold the class.
fn holding(lines: &[LineSpec], class: u8) -> usize {
    lines.iter().filter(|line| line.holds_class(class)).count()
}

#[test]
fn random_sheets_answer_by_the_first_line_that_holds_the_class() {
    for seed in seeds() {
        let (mut rng, mut compared) = (Rng::new(seed), Compared::new());
        let mut counts = [0; KINDS.len()];
        for round in 0..400 {
            let spec = SheetSpec::random(&mut rng);
            let sheet = spec.bytes();
            for class in 0..=255 {
                let case = format!("seed {seed}, sheet {round}, class {class}");
                compared.case(&case);
                let answer = ask(&mut compared, &sheet, class);
                assert_eq!(answer, due(&spec.lines, class), "{case}");
                for (count, (_, is_it)) in counts.iter_mut().zip(KINDS) {
                    *count += u32::from(is_it(&spec.lines, class));
                }
            }
        }
        for (count, (name, _)) in counts.iter().zip(KINDS) {
            assert!(*count > 500, "{name}: {count} times");
        }
    }
}

/// A line that does not hold the class; it is for a record or a box, or ends below the class or begins above it, often
/// just so.
fn other_line(rng: &mut Rng, class: u8) -> LineSpec {
    let by = rng.pick(&[1, 1, 2, 30, 200]);
    let (below, above) = (class.checked_sub(by), class.checked_add(by));
    match (rng.below(4), below, above) {
        (0, Some(high), _) => LineSpec::Classes(rng.from_to(0, high.into()) as u8, high),
        (1, _, Some(low)) => LineSpec::Classes(low, rng.from_to(low.into(), 255) as u8),
        (2, ..) => LineSpec::Box(BoxSpec::random(rng)),
        _ => LineSpec::Record(rng.array(), rng.next() as u16),
    }
}

/// A line that holds the class, often by its lowest or its highest.
fn line_with(rng: &mut Rng, class: u8) -> LineSpec {
    let (mut low, mut high) = (class, class);
    if rng.chance(50) {
        low = rng.from_to(0, class.into()) as u8;
    }
    if rng.chance(50) {
        high = rng.from_to(class.into(), 255) as u8;
    }
    LineSpec::Classes(low, high)
}

#[test]
fn a_line_among_random_ones_answers_by_its_place() {
    for seed in seeds() {
        let (mut rng, mut compared) = (Rng::new(seed), Compared::new());
        for round in 0..20_000 {
            let (class, count) = (rng.byte(), rng.from_to(0, 63));
            let mut lines: Vec<LineSpec> =
                (0..count).map(|_| other_line(&mut rng, class)).collect();
            let case = format!("seed {seed}, sheet {round}");
            compared.case(&case);
            let sheet = SheetSpec::new(lines.clone()).bytes();
            let answer = ask(&mut compared, &sheet, class);
            assert_eq!(answer, held_by_none(count), "{case}");
            let place = rng.from_to(0, count);
            lines.insert(place, line_with(&mut rng, class));
            lines[place + 1..].fill_with(|| LineSpec::random(&mut rng));
            let answer = ask(&mut compared, &SheetSpec::new(lines).bytes(), class);
            assert_eq!(answer, held_by(place + 1), "{case}");
        }
    }
}

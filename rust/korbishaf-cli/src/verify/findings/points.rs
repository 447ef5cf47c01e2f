//! Findings about the points: what is before and behind them, which of them a release would not have, and what the
//! header states of them.

use super::super::parts;
use super::{Finding, Points, What, all_zero};
use crate::facts::boxes::Boxes;
use crate::facts::class::CLASSES;
use crate::facts::group::{Group, Outcome};
use crate::facts::stated;
use crate::facts::tally::Tally;
use crate::layout::{BOUNDS, BY_RETURN};
use korbishaf::{Header, Sheet, class_kept};

pub fn find(
    file: &[u8],
    header: &Header<'_>,
    sheet: &Sheet,
    records_end: usize,
) -> impl Iterator<Item = Finding> {
    let end = parts::points_end(file).unwrap_or(file.len());
    let mut found = Vec::new();
    if let Ok(points) = korbishaf::points(file) {
        let tally = Tally::of(points, &Boxes::of(sheet), |_| {});
        found.extend(wrong(file, header, &tally));
        found.extend(staying(header, &tally, sheet));
    }
    found.extend(gap(file, header, records_end));
    found.extend(behind(file, end, usize::from(header.record_length)));
    found.into_iter()
}

/// The points that a release would not have, each once: by class where the sheet does not keep that, and else together.
fn staying(header: &Header<'_>, tally: &Tally, sheet: &Sheet) -> Vec<Finding> {
    let kept: [bool; CLASSES as usize] =
        std::array::from_fn(|class| class_kept(sheet, class as u8));
    let outcome = |points: Group| points.outcome(|class| kept[usize::from(class)]);
    let mut found = Vec::new();
    for class in 0..CLASSES {
        let such =
            |points: Group| points.class() == class && outcome(points) == Outcome::ClassNotKept;
        let what = |points| What::PointsNotKept { class, points };
        found.extend(of_points(header, tally, such, what));
    }
    let withheld = |points| What::PointsWithheld { points };
    let such = |points| outcome(points) == Outcome::Withheld;
    found.extend(of_points(header, tally, such, withheld));
    let outside = |points| What::PointsOutside { points };
    let such = |points| outcome(points) == Outcome::OutsideBoxes;
    found.extend(of_points(header, tally, such, outside));
    found
}

/// What the points of such groups are; nothing where there are none.
fn of_points(
    header: &Header<'_>,
    tally: &Tally,
    such: impl Fn(Group) -> bool,
    what: impl FnOnce(Points) -> What,
) -> Option<Finding> {
    let (count, first) = (tally.points(&such) as usize, tally.first(&such)? as usize);
    let length = usize::from(header.record_length);
    Some(Finding {
        place: header.point_offset as usize + first * length,
        length: count * length,
        what: what(Points { count, first }),
    })
}

/// The counts by return and the bounds that are not those of the points.
fn wrong(file: &[u8], header: &Header<'_>, tally: &Tally) -> Vec<Finding> {
    let counts = stated::returns(header, tally).map(|count| count.actual);
    let bounds = stated::bounds(header, tally).map(|bound| bound.values.actual.to_bits());
    let fields = BY_RETURN
        .iter()
        .zip(counts)
        .chain(BOUNDS.iter().zip(bounds));
    let wrong = fields.filter_map(|(field, actual)| {
        let stated = field.bits(file).filter(|&stated| stated != actual)?;
        Some(Finding {
            place: field.place,
            length: field.width,
            what: What::WrongValue {
                field: field.name,
                stated: field.value(stated),
                actual: field.value(actual),
            },
        })
    });
    wrong.collect()
}

fn gap(file: &[u8], header: &Header<'_>, records_end: usize) -> Option<Finding> {
    let gap = file.get(records_end..header.point_offset as usize)?;
    (!gap.is_empty()).then(|| Finding {
        place: records_end,
        length: gap.len(),
        what: What::Gap {
            behind: match header.record_count {
                0 => "header",
                _ => "records",
            },
            all_zero: all_zero(gap),
        },
    })
}

/// What is behind the points, up to its last byte that is not zero. A point may end with zeros, so that the last one is
/// counted whole where the file has its bytes.
fn behind(file: &[u8], end: usize, record_length: usize) -> Option<Finding> {
    let behind = file.get(end..)?;
    let last = behind.iter().rposition(|&byte| byte != 0)?;
    let record_length = record_length.max(1);
    let whole = (last / record_length + 1).saturating_mul(record_length);
    let length = whole.min(behind.len());
    Some(Finding {
        place: end,
        length,
        what: What::BehindPoints {
            whole: length / record_length,
            over: length % record_length,
        },
    })
}

#[cfg(test)]
mod tests {
    use super::*;

    fn found(behind_points: &[u8]) -> Option<(usize, usize, usize)> {
        let file = [&[1; 50], behind_points].concat();
        behind(&file, 50, 20).map(|finding| match finding.what {
            What::BehindPoints { whole, over } => (finding.length, whole, over),
            _ => panic!("it is what is behind the points"),
        })
    }

    #[test]
    fn the_last_point_behind_is_whole_where_there_is_room() {
        assert_eq!(found(&[]), None);
        assert_eq!(found(&[0; 90]), None);
        assert_eq!(found(&[7; 5]), Some((5, 0, 5)));
        assert_eq!(found(&[7; 19]), Some((19, 0, 19)));
        assert_eq!(found(&[7; 20]), Some((20, 1, 0)));
        assert_eq!(found(&[7; 21]), Some((21, 1, 1)));
        assert_eq!(found(&[&[7; 21], &[0; 19][..]].concat()), Some((40, 2, 0)));
        assert_eq!(found(&[&[7; 39], &[0; 90][..]].concat()), Some((40, 2, 0)));
        assert_eq!(found(&[&[0; 25][..], &[7]].concat()), Some((26, 1, 6)));
    }
}

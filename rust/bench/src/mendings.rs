//! Mendings of whole files: the time for each point as files grow, and where the header states far too many.

use std::hint::black_box;
use std::time::Duration;

use korbishaf::sys::las_mended;

use crate::builds::Builds;
use crate::cases::{COMMON, SIZES, rounds};
use crate::each;
use crate::growth::{GROWTH, ratios};
use crate::library::{Library, Mender};
use crate::sample::{HEADER, Sample};
use crate::timing::{Side, medians, per_item, ratio, time};

/// The header that a file has when a turn begins.
type Header = [u8; HEADER];

/// The median of each side on one file: with its own number of points, and with 2^32 - 1.
struct Medians {
    points: usize,
    exact: Vec<Duration>,
    damaged: Vec<Duration>,
}

/// Times mendings of files of all sizes, and prints the figures.
pub fn compare(builds: &Builds) {
    let menders: Vec<Mender> = builds.all().filter_map(Library::mender).collect();
    println!(
        "mending: medians in ns for each point of format 1, and what ours takes of the others' times"
    );
    let table = each::start(menders.len() > 1);
    let [_, small, common, large] = SIZES.map(|points| {
        let found = Medians::find(&menders, points);
        table.row(&each::cells(&points.to_string(), points, &found.exact));
        found
    });
    let growth = ratios(&large.per_point(), &small.per_point());
    table.row(&each::figures(GROWTH, growth));
    table.row(&each::cells(
        "2^32-1 stated",
        common.points,
        &common.damaged,
    ));
    let both = common.damaged.iter().zip(&common.exact);
    let more = both.map(|(&damaged, &exact)| ratio(damaged, exact));
    table.row(&each::figures("2^32-1 / exact", more));
}

impl Medians {
    /// Times all sides on a file of this size; both numbers of points have turns in every round.
    fn find(menders: &[Mender], points: usize) -> Self {
        let mut file = Sample { points, ..COMMON }.file();
        let exact: Header = *file.first_chunk().expect("a file has a header");
        let damaged = with_most_points(exact);
        let mut all = Vec::new();
        for header in [exact, damaged] {
            assert_same(menders, &mut file, &header);
            all.extend(sides(menders, header));
        }
        let mut exact = medians(rounds(points), &all, &mut file);
        let damaged = exact.split_off(exact.len() / 2);
        Self {
            points,
            exact,
            damaged,
        }
    }

    /// Nanoseconds for each point with its own number of points, side by side.
    fn per_point(&self) -> Vec<f64> {
        let each = |&time| per_item(time, self.points);
        self.exact.iter().map(each).collect()
    }
}

/// The header with a number of points of 2^32 - 1.
fn with_most_points(mut header: Header) -> Header {
    header[107..111].fill(0xFF);
    header
}

/// las_plain, then each build that mends.
fn sides(menders: &[Mender], header: Header) -> Vec<Side<'_>> {
    let plain = side(header, |file| {
        black_box(las_plain::mend(file)).ok();
    });
    let builds = menders.iter().map(|mender| {
        side(header, |file| {
            black_box(mender.mend(file));
        })
    });
    [plain].into_iter().chain(builds).collect()
}

/// A side that has the header as it was before each turn, so that there is as much to set right in each; a mending
/// changes nothing else.
fn side<'a>(header: Header, mend: impl Fn(&mut [u8]) + 'a) -> Side<'a> {
    Box::new(move |file| {
        file[..HEADER].copy_from_slice(&header);
        time(|| mend(black_box(file)))
    })
}

/// Asserts that all sides give the same marks and the same file.
fn assert_same(menders: &[Mender], file: &mut [u8], header: &Header) {
    file[..HEADER].copy_from_slice(header);
    let mut expected = file.to_vec();
    let marks = las_plain::mend(&mut expected).expect("the file is mended");
    let answer = las_mended {
        number: 0,
        marks: marks.map(u64::from),
    };
    for mender in menders {
        file[..HEADER].copy_from_slice(header);
        assert_eq!(mender.mend(file), answer);
        assert!(*file == *expected, "the mended files differ");
    }
}

#[cfg(test)]
mod tests {
    use super::*;
    use std::cell::RefCell;

    #[test]
    fn every_turn_mends_the_same_header() {
        let points = 10;
        let mut file = Sample { points, ..COMMON }.file();
        let header = with_most_points(*file.first_chunk().expect("a file has a header"));
        let marks = RefCell::new(Vec::new());
        let turn = side(header, |file| {
            marks.borrow_mut().push(las_plain::mend(file))
        });
        turn(&mut file);
        turn(&mut file);
        drop(turn);
        let [first, second] = marks.into_inner().try_into().expect("there were two turns");
        assert_eq!(first, second);
        assert!(first.expect("the file is mended")[0]);
    }
}

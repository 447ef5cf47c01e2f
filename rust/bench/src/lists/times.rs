//! The median of each call of both ways, and of the passes that write.

use std::hint::black_box;
use std::time::Duration;

use super::ways::Ways;
use crate::timing::{Side, medians, time};

/// The median of each call of a side.
#[derive(Clone, Copy, Debug, PartialEq, Eq)]
pub struct Times {
    /// Of a whole release of the first way, into an output as long as the file. For such an output ours does not count
    /// the kept points before it writes them.
    pub release: Duration,
    /// Of a whole release of the first way, into an output of exactly the released length: it counts, then writes.
    pub exact_release: Duration,
    /// Of a release into no output at all: it counts, and is refused when the length is known.
    pub length: Duration,
    /// Of the cutting list alone.
    pub list: Duration,
    /// Of a whole release of the second way, into an output as long as the file.
    pub by_list: Duration,
    /// Of a whole release of the second way, into an output of exactly the released length.
    pub exact_by_list: Duration,
}

impl Times {
    /// Those of the medians of its calls, in their order.
    pub fn of(medians: [Duration; CALLS]) -> Self {
        let [release, exact_release, length, list, by_list, exact_by_list] = medians;
        Times {
            release,
            exact_release,
            length,
            list,
            by_list,
            exact_by_list,
        }
    }

    /// What the first way takes to write into an output of exactly the released length, once it has counted.
    pub fn first_pass(&self) -> Duration {
        self.exact_release.saturating_sub(self.length)
    }

    /// What the second way takes to write into the same output, once it has filled the list.
    pub fn second_pass(&self) -> Duration {
        self.exact_by_list.saturating_sub(self.list)
    }
}

/// Times all calls of all sides in turns. All sides release the same.
pub fn times(rounds: usize, all: &[&dyn Ways], file: &[u8], sheet: &[u8]) -> Vec<Times> {
    let mut room = vec![0; file.len()];
    let released = all[0].release(file, sheet, &mut room).length as usize;
    let sides: Vec<Side> = all
        .iter()
        .flat_map(|&ways| calls(ways, file, sheet, released))
        .collect();
    let found = medians(rounds, &sides, &mut room);
    let (sides, _) = found.as_chunks();
    sides.iter().copied().map(Times::of).collect()
}

const CALLS: usize = 6;

/// The calls of a side, in the order of the fields of [`Times`], where the released file has so many bytes.
fn calls<'a>(
    ways: &'a dyn Ways,
    file: &'a [u8],
    sheet: &'a [u8],
    released: usize,
) -> [Side<'a>; CALLS] {
    let release = |length| {
        side(ways, length, move |out| {
            black_box(ways.release(black_box(file), sheet, out));
        })
    };
    let by_list = |length| {
        side(ways, length, move |out| {
            black_box(ways.release_by_list(black_box(file), sheet, out));
        })
    };
    let list = side(ways, 0, move |_| {
        black_box(ways.cutting_list(black_box(file), sheet));
    });
    [
        release(file.len()),
        release(released),
        release(0),
        list,
        by_list(file.len()),
        by_list(released),
    ]
}

/// A side with an output of this length, which has output and list cleared before each turn.
pub fn side<'a>(ways: &'a dyn Ways, length: usize, call: impl Fn(&mut [u8]) + 'a) -> Side<'a> {
    Box::new(move |out| {
        out.fill(0);
        ways.clear();
        let out = &mut out[..length];
        time(|| call(out))
    })
}

#[cfg(test)]
mod tests {
    use super::*;
    use korbishaf::sys::{las_line, las_released};
    use std::cell::RefCell;

    /// The calls that were made, with the lengths of their outputs.
    #[derive(Default)]
    struct Noted(RefCell<Vec<(&'static str, usize)>>);

    impl Noted {
        fn note(&self, call: &'static str, out: &[u8]) -> las_released {
            self.0.borrow_mut().push((call, out.len()));
            las_released {
                length: 250,
                ..las_released::default()
            }
        }
    }

    impl Ways for Noted {
        fn clear(&self) {}

        fn release(&self, _: &[u8], _: &[u8], out: &mut [u8]) -> las_released {
            self.note("release", out)
        }

        fn cutting_list(&self, _: &[u8], _: &[u8]) -> u64 {
            self.note("list", &[]).points
        }

        fn release_by_list(&self, _: &[u8], _: &[u8], out: &mut [u8]) -> las_released {
            self.note("by list", out)
        }

        fn lines(&self) -> Vec<las_line> {
            Vec::new()
        }
    }

    #[test]
    fn passes_are_timed_with_outputs_of_exactly_the_released_length() {
        let ways = Noted::default();
        assert_eq!(times(1, &[&ways], &[0; 300], &[]).len(), 1);
        let in_order = [
            ("release", 300),
            ("release", 250),
            ("release", 0),
            ("list", 0),
            ("by list", 300),
            ("by list", 250),
        ];
        // the first asks for the released length
        assert_eq!(ways.0.borrow()[1..], in_order);
    }
}

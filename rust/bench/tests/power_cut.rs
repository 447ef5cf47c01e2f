//! A release that is cut short at any moment, as by a power cut, has written nothing that is not released.
//!
//! Each trial kills a process that releases into a mapped file, and looks there for a byte that stands in nothing that
//! is released.

mod power_cut {
    pub mod folder;
    pub mod scan;
}

use std::fmt;
use std::io::Write;
use std::time::Duration;

use compare::rng::{FIXED_SEED, Rng};
use power_cut::folder::ReleaseFolder;
use power_cut::scan::{self, DROPPED, MARKER};

/// Both ways to release, as the program calls them: at once, and by a list that is filled first.
const WAYS: [&str; 2] = ["release", "by-list"];

/// For each way and each length of the output.
const TRIALS: usize = ROUNDS * TRIALS_OF_ROUND;
/// In each round whole releases are timed anew, since other work on the machine comes and goes.
const ROUNDS: usize = 15;
const TRIALS_OF_ROUND: usize = 20;

#[test]
fn a_release_that_is_killed_leaves_no_byte_that_is_not_released() {
    let (file, sheet) = (scan::file(), scan::sheet());
    let mut room = vec![MARKER; file.len()];
    let answer = las_plain::release(&file, &sheet, &mut room).expect("the file is released");
    assert!((90_000..110_000).contains(&answer.points));
    assert_eq!(answer.records, 1);
    let lengths = [file.len(), answer.length as usize];
    let outcomes =
        WAYS.map(|way| lengths.map(|length| cut_releases(way, &file, &sheet, &room[..length])));
    for outcome in outcomes.iter().flatten() {
        assert!(outcome.leaks.is_empty(), "{outcome}");
        assert!(outcome.cut >= TRIALS / 5, "too few: {outcome}");
    }
}

/// What came of the trials of one way with one length of the output.
struct Outcome {
    way: &'static str,
    length: usize,
    /// How many had begun to write and not ended.
    cut: usize,
    /// The first place of a byte that is not released, for each trial that left one.
    leaks: Vec<usize>,
}

impl fmt::Display for Outcome {
    fn fmt(&self, f: &mut fmt::Formatter) -> fmt::Result {
        let (cut, leaks) = (self.cut, self.leaks.len());
        write!(f, "{}, output of {} bytes: ", self.way, self.length)?;
        write!(f, "{TRIALS} releases killed, {cut} of them while writing, ")?;
        write!(f, "{leaks} left bytes that are not released")?;
        if let Some(place) = self.leaks.iter().min() {
            write!(f, " (from place {place} on)")?;
        }
        Ok(())
    }
}

/// Kills releases into an output of the length of `released`, which is what they write where they are let be.
fn cut_releases(way: &'static str, file: &[u8], sheet: &[u8], released: &[u8]) -> Outcome {
    assert!(!released.contains(&DROPPED));
    let folder = ReleaseFolder::new(way, file, sheet, vec![MARKER; released.len()]);
    let mut rng = Rng::new(FIXED_SEED);
    let (mut cut, mut leaks) = (0, Vec::new());
    for _ in 0..ROUNDS {
        let whole = whole_release(&folder, released);
        for _ in 0..TRIALS_OF_ROUND {
            folder.cut_release(whole.mul_f64(rng.below(1_200) as f64 / 1_000.0));
            let output = folder.output();
            let begun = output.iter().any(|&byte| byte != MARKER);
            cut += usize::from(begun && output != released);
            leaks.extend(output.iter().position(|&byte| byte == DROPPED));
        }
    }
    let length = released.len();
    let outcome = Outcome {
        way,
        length,
        cut,
        leaks,
    };
    // Written past the test harness, which keeps what a passing test prints.
    let line = format!("{outcome}\n");
    std::io::stderr().write_all(line.as_bytes()).ok();
    outcome
}

/// The median time of three releases that nothing disturbs. Each has to write what las_plain does.
fn whole_release(folder: &ReleaseFolder, released: &[u8]) -> Duration {
    let mut times = [(); 3].map(|()| {
        let time = folder.release();
        assert!(folder.output() == released, "the outputs differ");
        time
    });
    times.sort();
    times[1]
}

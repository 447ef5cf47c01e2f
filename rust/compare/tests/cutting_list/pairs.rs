//! Demand 3 by the second way: files with the same public part give the same output and numbers, where each list is
//! long enough. The lists themselves show places, so they may differ.

use compare::answers::Line;
use compare::boxed;
use compare::compared::{Compared, Function};
use compare::partly_kept::{self, Change, PRIVATE};
use compare::rng::{Rng, seeds};
use compare::spec::{FileSpec, SheetSpec};

use super::table::{Case, junk, refused};

/// Files, a sheet, and changes of what is then outside the public part.
struct Source {
    file: fn(&mut Rng) -> FileSpec,
    sheet: SheetSpec,
    changes: Vec<(&'static str, Change)>,
}

/// Without boxes and with some, for each seed.
fn sources() -> impl Iterator<Item = (u64, Source)> {
    let without = || Source {
        file: partly_kept::mixed_file,
        sheet: partly_kept::sheet(),
        changes: PRIVATE.to_vec(),
    };
    let with = || Source {
        file: boxed::file,
        sheet: boxed::sheet(),
        changes: boxed::private().collect(),
    };
    let both = move |seed| [(seed, without()), (seed, with())];
    seeds().into_iter().flat_map(both)
}

/// Releases both files by lists that are long enough but of differing lengths, into outputs of one length; all hold
/// differing junk. Numbers and outputs are the same. Gives both lists.
fn assert_same(
    compared: &mut Compared,
    rng: &mut Rng,
    pair: &[Case; 2],
    room: usize,
) -> [Vec<Line>; 2] {
    let [first, second] = pair.each_ref().map(|case| {
        let lines = case.lines.len();
        let before = rng.bytes(room);
        let length = lines + rng.pick(&[0, 0, 1, 30]);
        let list = junk(rng, length);
        let (answer, out, list) = compared.release_by_list(&case.file, &case.sheet, &before, &list);
        assert!(answer.number == 0 || out == before);
        (
            answer,
            (answer.number == 0).then_some(out),
            list[..lines].to_vec(),
        )
    });
    assert_eq!(first.0, second.0);
    assert!(first.1 == second.1, "the outputs differ");
    let needed = pair[0].released.length;
    if room < needed as usize {
        assert_eq!(first.0, refused(30, needed));
    } else {
        assert_eq!(first.0, pair[0].released);
    }
    [first.2, second.2]
}

/// The same by outputs that are exact, longer and too short; says whether the lists differ.
fn assert_same_everywhere(
    compared: &mut Compared,
    rng: &mut Rng,
    pair: [&FileSpec; 2],
    sheet: &SheetSpec,
) -> bool {
    let pair = pair.map(|spec| Case::new(spec, sheet));
    let needed = pair[0].needed();
    let [first, second] = assert_same(compared, rng, &pair, needed);
    for room in [needed + 1, needed + rng.from_to(2, 100), needed - 1, 0] {
        assert_same(compared, rng, &pair, room);
    }
    assert_eq!(first.len(), second.len());
    first != second
}

#[test]
fn each_private_item_changed_alone_gives_the_same_output_and_numbers_by_a_list() {
    for (seed, source) in sources() {
        let (mut rng, mut compared) = (Rng::new(seed), Compared::new());
        for (name, change) in source.changes {
            let mut differing = 0;
            for round in 0..300 {
                let spec = (source.file)(&mut rng);
                let mut other = spec.clone();
                change(&mut rng, &mut other);
                differing += u32::from(spec.bytes() != other.bytes());
                compared.case(format!("seed {seed}, {name}, pair {round}"));
                assert_same_everywhere(&mut compared, &mut rng, [&spec, &other], &source.sheet);
            }
            assert!(differing > 110, "{name}: only {differing} pairs differ");
        }
    }
}

#[test]
fn all_private_items_changed_together_show_in_the_list_alone() {
    for (seed, source) in sources() {
        let (mut rng, mut compared) = (Rng::new(seed), Compared::new());
        let mut other_lists = 0;
        for round in 0..3000 {
            let spec = (source.file)(&mut rng);
            let mut other = spec.clone();
            for (_, change) in &source.changes {
                change(&mut rng, &mut other);
            }
            assert_ne!(spec.bytes(), other.bytes());
            compared.case(format!("seed {seed}, pair {round}"));
            let differ =
                assert_same_everywhere(&mut compared, &mut rng, [&spec, &other], &source.sheet);
            other_lists += u32::from(differ);
        }
        assert!(other_lists > 2000, "only {other_lists} lists differ");
        if source.sheet.has_boxes() {
            compared.assert_boxes_decided(&[Function::ReleaseByList]);
        }
    }
}

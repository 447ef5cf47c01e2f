//! Random files and sheets, with lists and outputs of all telling lengths.

use compare::compared::{Compared, Function};
use compare::partly_kept;
use compare::rng::{Rng, seeds};
use compare::spec::{FileSpec, SheetSpec};

use super::table::{Case, list_lengths, rooms};

/// A file of anything under a random sheet, or one of which a sheet keeps about half.
fn random_case(rng: &mut Rng) -> Case {
    if rng.chance(50) {
        let spec = FileSpec::random(rng);
        let sheet = SheetSpec::random_for(rng, &spec);
        Case::new(&spec, &sheet)
    } else {
        Case::new(&partly_kept::mixed_file(rng), &partly_kept::sheet())
    }
}

/// A name for what is kept, and whether that is so.
type Kind = (&'static str, fn(&Case) -> bool);

const KINDS: [Kind; 5] = [
    ("nothing", |case| case.lines.is_empty()),
    ("records alone", |case| {
        case.released.records > 0 && case.released.points == 0
    }),
    ("points alone", |case| {
        case.released.records == 0 && case.released.points > 0
    }),
    ("records and points", |case| {
        case.released.records > 0 && case.released.points > 0
    }),
    ("an empty payload", |case| {
        case.lines.iter().any(|line| line.length == 0)
    }),
];

/// Every list of a telling length, and every release by it into an output of a telling length.
fn assert_everywhere(compared: &mut Compared, rng: &mut Rng, case: &Case) {
    for length in list_lengths(rng, case.lines.len()) {
        case.assert_listed(compared, rng, length);
        for room in rooms(rng, case.needed()) {
            let number = case.assert_released(compared, rng, length, room);
            let due = match (length < case.lines.len(), room < case.needed()) {
                (true, _) => 31,
                (false, true) => 30,
                (false, false) => 0,
            };
            assert_eq!(number, due);
        }
    }
}

#[test]
fn random_files_and_sheets_give_the_lists_that_are_due_and_the_releases_of_the_first_way() {
    for seed in seeds() {
        let (mut rng, mut compared) = (Rng::new(seed), Compared::new());
        let mut counts = [0; KINDS.len()];
        for round in 0..4000 {
            let case = random_case(&mut rng);
            compared.case(format!("seed {seed}, file {round}"));
            assert_everywhere(&mut compared, &mut rng, &case);
            for (count, (_, is_it)) in counts.iter_mut().zip(KINDS) {
                *count += u32::from(is_it(&case));
            }
        }
        for (count, (name, _)) in counts.iter().zip(KINDS) {
            assert!(*count > 100, "{name}: {count} times");
        }
        compared.assert_boxes_decided(&[Function::CuttingList, Function::ReleaseByList]);
    }
}

#[test]
fn a_list_that_was_filled_is_filled_again_the_same() {
    for seed in seeds() {
        let (mut rng, mut compared) = (Rng::new(seed), Compared::new());
        for round in 0..2000 {
            let (case, other) = (random_case(&mut rng), random_case(&mut rng));
            compared.case(format!("seed {seed}, file {round}"));
            let most = case.lines.len().max(other.lines.len());
            let room = vec![0xEE; case.needed()];
            // What another file has left in the list does not show.
            let left = [&other.lines, &case.lines].map(|lines| {
                let mut list = lines.clone();
                list.resize(most, Default::default());
                list
            });
            for before in left {
                let (answer, out, list) =
                    compared.release_by_list(&case.file, &case.sheet, &room, &before);
                assert_eq!(list[..case.lines.len()], case.lines);
                assert_eq!(
                    (answer, out),
                    compared.release(&case.file, &case.sheet, &room)
                );
            }
        }
    }
}

//! The file checks 1 to 10: each number on both sides of its boundary, the
//! order of the checks, and random files sound and damaged.

use std::collections::BTreeSet;

use compare::boundaries;
use compare::compared::{Compared, Function};
use compare::damage::{damage, spoil};
use compare::rng::{Rng, seeds};
use compare::spec::{FileSpec, SheetSpec};

const FILE_FUNCTIONS: [Function; 2] = [Function::CheckFile, Function::ReadHeader];

/// Calls every function that reads a file; all give the file's number.
fn call_all(compared: &mut Compared, file: &[u8]) -> u64 {
    let number = compared.check_file(file);
    let header = compared.read_header(file);
    let record = compared.vlr_step(file, 0, header.header_size);
    let point = compared.point_at(file, 0);
    let geokey = compared.geokey_find(file, 1024);
    let sheet = [0x4B, 0x53, 1, 0, 5];
    let (released, _) = compared.release(file, &sheet, &vec![0xEE; file.len() + 3]);
    assert_eq!(header.number, number);
    if number == 0 {
        assert_eq!(released.number, 0);
    } else {
        let others = [record.number, point.number, geokey.number, released.number];
        assert_eq!(others, [number; 4]);
    }
    number
}

#[test]
fn each_number_is_given_exactly_on_its_side_of_the_boundary() {
    let mut compared = Compared::new();
    for number in 1..=10 {
        let mut given = BTreeSet::new();
        for case in boundaries::of(number) {
            compared.case(&case.name);
            let answer = call_all(&mut compared, &case.file);
            assert_eq!(answer, case.number, "{}", case.name);
            given.insert(answer);
        }
        assert_eq!(given, [0, number].into());
    }
}

#[test]
fn of_several_failing_checks_the_first_gives_its_number() {
    let mut compared = Compared::new();
    for first in 1..=10 {
        let mut all = FileSpec::common(1).bytes();
        (first..=10)
            .rev()
            .for_each(|number| spoil(&mut all, number));
        assert_eq!(call_all(&mut compared, &all), first);
        for second in first + 1..=10 {
            let mut file = FileSpec::common(1).bytes();
            spoil(&mut file, second);
            spoil(&mut file, first);
            compared.case(format!("{first} and {second}"));
            assert_eq!(call_all(&mut compared, &file), first);
        }
    }
    assert_eq!(call_all(&mut compared, &FileSpec::common(1).bytes()), 0);
    compared.assert_all_reached(&FILE_FUNCTIONS);
}

#[test]
fn random_files_sound_and_damaged_give_equal_answers() {
    for seed in seeds() {
        let mut rng = Rng::new(seed);
        let mut compared = Compared::new();
        for round in 0..6000 {
            let file = FileSpec::random(&mut rng).bytes();
            compared.case(format!("seed {seed}, file {round}, sound"));
            assert_eq!(call_all(&mut compared, &file), 0);
            for time in 0..6 {
                let mut damaged = file.clone();
                damage(&mut rng, &mut damaged);
                compared.case(format!("seed {seed}, file {round}, damage {time}"));
                call_all(&mut compared, &damaged);
            }
        }
        compared.assert_all_reached(&FILE_FUNCTIONS);
    }
}

#[test]
fn every_file_number_comes_before_what_else_a_function_refuses() {
    let mut compared = Compared::new();
    let bad_sheet = [0x4B];
    for number in 1..=10 {
        let mut file = FileSpec::common(1).bytes();
        spoil(&mut file, number);
        compared.case(format!("number {number}"));
        assert_eq!(compared.vlr_step(&file, u64::MAX, u64::MAX).number, number);
        assert_eq!(compared.point_at(&file, u64::MAX).number, number);
        assert_eq!(compared.geokey_find(&file, 0).number, number);
        assert_eq!(compared.release(&file, &bad_sheet, &[]).0.number, number);
    }
    let file = FileSpec::common(1).bytes();
    assert_eq!(compared.release(&file, &bad_sheet, &[]).0.number, 22);
    assert_eq!(
        compared
            .release(&file, &SheetSpec::default().bytes(), &[])
            .0
            .number,
        30
    );
}

//! The walk over variable length records, step by step.

use compare::compared::{Compared, Function};
use compare::damage::{VLR_COUNT, spoil};
use compare::rng::{Rng, seeds};
use compare::spec::{FileSpec, RecordSpec, cut, projection};

/// Two records, the second ending exactly at the offset, and two points.
fn two_records() -> FileSpec {
    FileSpec {
        header_extra: vec![7; 3],
        records: vec![projection(1, vec![1; 100]), projection(2, vec![2; 60])],
        points: vec![vec![3; 20]; 2],
        trailing: vec![4; 300],
        ..FileSpec::bare(0)
    }
}

#[test]
fn walking_from_the_header_gives_every_record_in_its_place() {
    for seed in seeds() {
        let mut rng = Rng::new(seed);
        let mut compared = Compared::new();
        for round in 0..4000 {
            let spec = FileSpec::random(&mut rng);
            compared.case(format!("seed {seed}, file {round}"));
            assert_walk(&mut compared, &spec);
        }
    }
}

fn assert_walk(compared: &mut Compared, spec: &FileSpec) {
    let file = spec.bytes();
    let (mut index, mut position) = (0, spec.header_size() as u64);
    for record in &spec.records {
        let step = compared.vlr_step(&file, index, position);
        let part = |place: u64, length: u64| &file[place as usize..(place + length) as usize];
        assert_eq!(step.number, 0);
        assert_eq!(part(step.user_place, step.user_length), record.cut_user());
        assert_eq!(step.record_id, u64::from(record.record_id));
        assert_eq!(
            part(step.description_place, step.description_length),
            cut(&record.description)
        );
        assert_eq!(
            part(step.payload_place, step.payload_length),
            record.payload
        );
        (index, position) = (step.next_index, step.next_position);
    }
    assert_eq!(index, spec.records.len() as u64);
    assert_eq!(position, spec.records_end() as u64);
    assert_eq!(compared.vlr_step(&file, index, position).number, 18);
}

#[test]
fn number_18_is_given_exactly_outside_count_header_and_offset() {
    let spec = two_records();
    let (file, start, end) = (
        spec.bytes(),
        spec.header_size() as u64,
        spec.point_offset() as u64,
    );
    let second = start + 154;
    let mut compared = Compared::new();
    let cases = [
        (0, start, 0),
        (1, start, 0),
        (2, start, 18),
        (1, second, 0),
        (0, second, 0),
        (2, second, 18),
        (0, start - 1, 18),
        (0, 0, 18),
        (0, 227, 18),
        (0, second + 1, 0), // its length is then read as 0
        (0, end - 54, 18),
        (0, end - 53, 18),
        (0, end - 1, 18),
        (0, end, 18),
        (0, end + 1, 18),
        (0, file.len() as u64, 18),
        (1 << 32, start, 18),
        ((1 << 32) + 1, start, 18),
        (1 << 63, start, 18),
        (u64::MAX, start, 18),
        (u64::MAX, u64::MAX, 18),
    ];
    for (index, position, number) in cases {
        compared.case(format!("index {index}, position {position}"));
        let step = compared.vlr_step(&file, index, position);
        assert_eq!(step.number, number, "index {index}, position {position}");
    }
}

#[test]
fn positions_near_two_to_the_64_and_high_bits_of_a_position_give_18() {
    let (file, start) = (two_records().bytes(), two_records().header_size() as u64);
    let mut compared = Compared::new();
    for below in 0..700 {
        compared.case(format!("position 2^64 - 1 - {below}"));
        assert_eq!(compared.vlr_step(&file, 0, u64::MAX - below).number, 18);
    }
    for high in 32..64 {
        let position = start + (1 << high);
        compared.case(format!("position {position}"));
        assert_eq!(compared.vlr_step(&file, 0, position).number, 18);
    }
}

#[test]
fn a_record_header_that_just_fits_before_the_offset_is_answered() {
    let mut compared = Compared::new();
    for (gap, payload_field, number) in [(54, 0, 0), (54, 1, 18), (55, 1, 0), (53, 0, 18)] {
        let mut gap = vec![0; gap];
        gap[20] = payload_field;
        let spec = FileSpec {
            records: vec![projection(1, vec![1; 10])],
            gap,
            trailing: vec![0; 100],
            ..FileSpec::bare(0)
        };
        let position = spec.records_end() as u64;
        compared.case(format!("gap {:?}", spec.gap));
        assert_eq!(compared.vlr_step(&spec.bytes(), 0, position).number, number);
    }
}

#[test]
fn every_index_and_position_inside_and_around_a_file_gives_equal_answers() {
    for seed in seeds() {
        let mut rng = Rng::new(seed);
        let mut compared = Compared::new();
        for round in 0..40 {
            let mut spec = FileSpec::random(&mut rng);
            spec.records.push(RecordSpec::random(&mut rng));
            let file = spec.bytes();
            compared.case(format!("seed {seed}, file {round}"));
            for position in 0..file.len() as u64 + 60 {
                let index = rng.below(spec.records.len() + 1) as u64;
                compared.vlr_step(&file, index, position);
            }
        }
        for number in 1..=10 {
            let mut file = two_records().bytes();
            spoil(&mut file, number);
            compared.vlr_step(&file, 0, 230);
        }
        compared.assert_all_reached(&[Function::VlrStep]);
    }
}

#[test]
fn the_largest_count_and_payloads_are_walked() {
    let spec = FileSpec {
        records: (0..20)
            .map(|id| projection(id, vec![id as u8; 65535 - usize::from(id)]))
            .collect(),
        points: vec![vec![3; 20]],
        ..FileSpec::bare(0)
    };
    let mut compared = Compared::new();
    assert_walk(&mut compared, &spec);
    // Empty records of zero bytes fill the gap as far as the count says.
    let zeros = FileSpec {
        gap: vec![0; 54 * 1000],
        ..FileSpec::bare(0)
    };
    for (count, number) in [(1000, 0), (1001, 8)] {
        assert_eq!(
            compared.check_file(&VLR_COUNT.with(&zeros.bytes(), count)),
            number
        );
    }
}

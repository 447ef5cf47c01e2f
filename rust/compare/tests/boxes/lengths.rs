//! Files of many lengths, so that kept points stand on both sides of wherever a pass over them may pause.

use compare::boxed::{file, sheet};
use compare::compared::Compared;
use compare::partly_kept;
use compare::rng::{Rng, seeds};
use compare::rooms::release;

/// More points than three blocks of the release have.
const MOST: usize = 300;

#[test]
fn of_as_many_points_as_there_may_be_in_a_few_blocks_those_that_are_kept_go_out() {
    let sheets = [sheet(), partly_kept::sheet()];
    for seed in seeds() {
        let (mut rng, mut compared) = (Rng::new(seed), Compared::new());
        let mut spec = file(&mut rng);
        let mut points = Vec::new();
        while points.len() < MOST {
            let mut more = file(&mut rng);
            if more.record_length == spec.record_length {
                points.append(&mut more.points);
            }
        }
        for count in 0..=MOST {
            spec.points = points[..count].to_vec();
            for sheet in &sheets {
                let kept = spec.points.iter().filter(|point| sheet.keeps_point(point));
                let kept = kept.count();
                compared.case(format!("seed {seed}, {count} points"));
                let [long, exact, _] =
                    release(&mut compared, &mut rng, &spec.bytes(), &sheet.bytes());
                assert_eq!(long.0.points, kept as u64);
                assert_eq!(exact.0.points, kept as u64);
            }
        }
    }
}

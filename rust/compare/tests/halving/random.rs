//! Random directories, of any order and size.

use compare::compared::Compared;
use compare::rng::{Rng, seeds};

use super::table::{around, assert_due, rise};

/// Keys in some order: most of them rise, with gaps; others fall, or nearly rise, or are any with repeats among them.
pub fn random_keys(rng: &mut Rng, most: usize) -> Vec<u16> {
    let count = rng.from_to(0, most);
    let span = rng.pick(&[count + 2, 2 * count + 2, 65536]);
    let first = rng.below(65537 - span);
    let mut keys: Vec<u16> = (0..count)
        .map(|_| (first + rng.below(span)) as u16)
        .collect();
    match rng.below(8) {
        0 => {}
        1 => keys.sort_by(|one, other| other.cmp(one)),
        2 => keys.sort(),
        rest => {
            keys.sort();
            keys.dedup();
            if rest == 3 && keys.len() > 1 {
                let (one, other) = (rng.below(keys.len()), rng.below(keys.len()));
                keys.swap(one, other);
            }
        }
    }
    keys
}

/// Some of the keys and of those beside them, where a directory is too large to be asked for all.
fn some(rng: &mut Rng, keys: &[u16]) -> Vec<u16> {
    let all: Vec<u16> = around(keys).into_iter().collect();
    let asked = all.len().min(80);
    (0..asked).map(|_| rng.pick(&all)).collect()
}

#[test]
fn random_directories_answer_by_the_due_reads() {
    for seed in seeds() {
        let (mut rng, mut compared) = (Rng::new(seed), Compared::new());
        let mut kinds = [0; 2];
        for _ in 0..3_000 {
            let keys = random_keys(&mut rng, 40);
            assert_due(&mut compared, &keys, around(&keys));
            kinds[usize::from(rise(&keys))] += 1;
        }
        assert!(kinds.iter().all(|&times| times > 500), "{kinds:?}");
        for most in [300, 300, 300, 2000, 8190, 8190] {
            let keys = random_keys(&mut rng, most);
            let asked = some(&mut rng, &keys);
            assert_due(&mut compared, &keys, asked);
        }
    }
}

//! `korbishaf verify` on random files, against `las_plain`.

mod common;

use common::Scratch;
use compare::rng::{Rng, seeds};
use compare::spec::{FileSpec, SheetSpec};

/// How many files are tried for each of the two seeds.
const FILES: usize = 150;

/// The file that `las_plain` releases, by itself.
fn released(file: &[u8], sheet: &[u8]) -> Vec<u8> {
    let mut out = vec![0; file.len()];
    let released = las_plain::release(file, sheet, &mut out).unwrap();
    out.truncate(released.length as usize);
    out
}

/// Whether `las_plain`, releasing a file into an output of its own length, gives it back. The library has to agree.
fn gives_itself(file: &[u8], sheet: &[u8]) -> bool {
    let (mut ours, mut theirs) = (vec![0xEE; file.len()], vec![0xEE; file.len()]);
    let answer = las_plain::release(file, sheet, &mut theirs);
    let number = answer.map_or_else(|refused| refused.number(), |_| 0);
    let our_answer = korbishaf::bytes::release(file, sheet, &mut ours);
    assert_eq!(
        our_answer.map_or_else(|refused| refused.number(), |_| 0),
        number
    );
    assert_eq!(ours, theirs);
    number == 0 && theirs == file
}

#[test]
fn what_las_plain_releases_is_verified_and_what_it_does_not_give_back_is_not() {
    let scratch = Scratch::new();
    let mut changed_and_verified = 0;
    for seed in seeds() {
        let mut rng = Rng::new(seed);
        for _ in 0..FILES {
            let file = FileSpec::random(&mut rng);
            let sheet = SheetSpec::random_for(&mut rng, &file).bytes();
            let mut card = released(&file.bytes(), &sheet);
            card.resize(card.len() + rng.pick(&[0, 0, 1, 30]), 0);
            let mut changed = card.clone();
            let place = rng.below(changed.len());
            changed[place] = changed[place].wrapping_add(rng.from_to(1, 255) as u8);
            assert!(gives_itself(&card, &sheet));
            let verified = gives_itself(&changed, &sheet);
            changed_and_verified += usize::from(verified);
            scratch.write("card.las", card);
            scratch.write("changed.las", changed);
            scratch.write("sheet.bin", sheet);
            let ran = scratch.says("verify card.las changed.las sheet.bin");
            let (verified, status) = match verified {
                true => ("changed.las: verified (", 0),
                false => ("changed.las: not verified: ", 1),
            };
            assert_eq!(ran.status, Some(status), "place {place}, {}", ran.out);
            assert!(ran.out.starts_with("card.las: verified ("), "{}", ran.out);
            assert!(ran.out.contains(&format!("\n{verified}")), "{}", ran.out);
            assert_eq!(ran.err, "");
        }
    }
    assert!(changed_and_verified > 30, "{changed_and_verified}");
}

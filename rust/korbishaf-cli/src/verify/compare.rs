//! The comparison that decides.

/// How many bytes are compared at a time.
const STEP: usize = 4096;

/// The first place where a file is not the released file with zeros behind it; none where it is just that.
pub fn first_difference(file: &[u8], released: &[u8]) -> Option<usize> {
    let common = file.len().min(released.len());
    let (front, rest) = file.split_at(common);
    let (wanted, missing) = released.split_at(common);
    if let Some(place) = first_unequal(front, wanted) {
        return Some(place);
    }
    if !missing.is_empty() {
        return Some(common);
    }
    let place = rest.iter().position(|&byte| byte != 0)?;
    Some(common + place)
}

/// The first place where two slices of one length differ. Whole steps are compared first, which is faster.
fn first_unequal(front: &[u8], wanted: &[u8]) -> Option<usize> {
    let mut steps = front.chunks(STEP).zip(wanted.chunks(STEP));
    let step = steps.position(|(found, wanted)| found != wanted)? * STEP;
    let mut bytes = front.iter().zip(wanted).skip(step);
    Some(step + bytes.position(|(found, wanted)| found != wanted)?)
}

#[cfg(test)]
mod tests {
    use super::*;

    #[test]
    fn every_place_is_found() {
        let released = vec![7; 2 * STEP + 1];
        for zeros in [0, 1, 3 * STEP] {
            let file = [&*released, &vec![0; zeros]].concat();
            assert_eq!(first_difference(&file, &released), None);
            for place in [0, 1, STEP - 1, STEP, 2 * STEP, 2 * STEP + 1, 5 * STEP] {
                let mut file = file.clone();
                if let Some(byte) = file.get_mut(place) {
                    *byte ^= 1;
                    assert_eq!(first_difference(&file, &released), Some(place));
                }
            }
        }
    }

    #[test]
    fn a_file_that_ends_early_differs_where_it_ends() {
        for length in [0, 1, STEP, STEP + 1] {
            let released = vec![0; STEP + 2];
            assert_eq!(
                first_difference(&released[..length], &released),
                Some(length)
            );
        }
        assert_eq!(first_difference(&[], &[]), None);
    }
}

//! The mender: counts and bounds of a header that follow from its points again.

use crate::file::LasFile;
use crate::header::{Block, tallied_fields};
use crate::refusal::Refusal;
use crate::tally::Tally;

/// Sets the number of points to the smaller of the stated number and the whole records that fit, and the five bins and
/// six bounds to those of these points, withheld ones too. No other byte changes.
///
/// The marks say which of these twelve fields have other bytes now, in the order of the header. Refusals are 1 to 8 and
/// 10, and leave the file as it was; 9 is never given.
pub fn mend(file: &mut [u8]) -> Result<[bool; 12], Refusal> {
    let mended = mended_block(file)?;
    let block = file.first_chunk_mut().expect("the file has a header");
    let marks = changed_fields(block, &mended);
    *block = mended;
    Ok(marks)
}

/// The header's bytes as they should be.
fn mended_block(file: &[u8]) -> Result<Block, Refusal> {
    let opened = LasFile::open_cut(file)?;
    let mut tally = Tally::new();
    opened.points().for_each(|record| tally.add(record));
    let mut block = *file.first_chunk().expect("the file has a header");
    opened.header().tallied(&tally).write_tallied(&mut block);
    Ok(block)
}

fn changed_fields(before: &Block, after: &Block) -> [bool; 12] {
    let mut marks = [false; 12];
    let fields = tallied_fields(before).zip(tallied_fields(after));
    for (mark, (before, after)) in marks.iter_mut().zip(fields) {
        *mark = before != after;
    }
    marks
}

#[cfg(test)]
mod tests {
    use super::*;
    use crate::bytes::{f64_at, put, u32_at};
    use crate::file::check_file;
    use crate::point::CLASS_PLACE;
    use crate::sample::p9_file;

    const COUNT: usize = 107;
    const BINS: usize = 111;
    const BOUNDS: usize = 179;

    /// The indices of the fields that are marked.
    fn marked(file: &mut [u8]) -> Vec<usize> {
        let marks = mend(file).unwrap();
        (0..12).filter(|&index| marks[index]).collect()
    }

    fn bounds(file: &[u8]) -> [f64; 6] {
        std::array::from_fn(|index| f64_at(file, BOUNDS + 8 * index))
    }

    /// A file that tells the truth: two points with return number 1 at 9.5, 9, 9.5.
    fn true_file() -> Vec<u8> {
        let mut file = p9_file();
        mend(&mut file).unwrap();
        file
    }

    #[test]
    fn bounds_that_lie_are_set_right_and_marked() {
        let mut file = p9_file();
        assert_eq!(marked(&mut file), [7, 8, 11]);
        assert_eq!(bounds(&file), [9.5, 9.5, 9.0, 9.0, 9.5, 9.5]);
        assert_eq!(file[..BOUNDS], p9_file()[..BOUNDS]);
        assert_eq!(file[227..], p9_file()[227..]);
    }

    #[test]
    fn a_second_mending_marks_nothing_and_changes_nothing() {
        let mut file = true_file();
        assert_eq!(mend(&mut file), Ok([false; 12]));
        assert_eq!(file, true_file());
    }

    #[test]
    fn a_number_that_is_too_large_becomes_that_of_the_whole_records() {
        let mut file = true_file();
        put(&mut file, COUNT, &u32::MAX.to_le_bytes());
        assert!(check_file(&file).is_err());
        assert_eq!(marked(&mut file), [0]);
        assert_eq!(file, true_file());
        file.pop();
        assert_eq!(marked(&mut file), [0, 1]);
        assert_eq!((u32_at(&file, COUNT), u32_at(&file, BINS)), (1, 1));
    }

    #[test]
    fn a_number_that_is_too_small_stays_and_the_rest_follows_it() {
        let mut file = true_file();
        put(&mut file, COUNT, &1u32.to_le_bytes());
        put(&mut file, 319, &[0xFF; 12]);
        assert_eq!(marked(&mut file), [1]);
        assert_eq!((u32_at(&file, COUNT), u32_at(&file, BINS)), (1, 1));
        assert_eq!(bounds(&file), bounds(&true_file()));
    }

    #[test]
    fn withheld_points_are_counted_as_the_others() {
        let mut file = true_file();
        file[291 + CLASS_PLACE] |= 0x80;
        file[319 + CLASS_PLACE] |= 0x80;
        assert_eq!(mend(&mut file), Ok([false; 12]));
    }

    #[test]
    fn no_points_have_bounds_of_plus_zero() {
        let mut file = true_file();
        put(&mut file, COUNT, &[0; 4]);
        put(&mut file, BOUNDS, &(-0.0f64).to_le_bytes());
        put(&mut file, BOUNDS + 8, &[0; 8]);
        put(&mut file, BOUNDS + 16, &f64::NAN.to_le_bytes());
        assert_eq!(marked(&mut file), [1, 6, 8, 9, 10, 11]);
        assert_eq!(file[COUNT..BINS + 20], [0; 24]);
        assert_eq!(file[BOUNDS..227], [0; 48]);
    }

    #[test]
    fn a_refusal_changes_nothing() {
        let mut file = p9_file();
        put(&mut file, COUNT, &u32::MAX.to_le_bytes());
        put(&mut file, 131, &f64::NAN.to_le_bytes());
        let before = file.clone();
        assert_eq!(mend(&mut file), Err(Refusal::BadScaling));
        assert_eq!(file, before);
        assert_eq!(mend(&mut file[..226]), Err(Refusal::FileTooSmall));
        assert_eq!(file, before);
    }
}

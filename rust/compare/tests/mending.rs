//! The mender: what it sets and marks, that nothing else changes, and every number it gives; 9 is none of them.

use std::collections::BTreeSet;

use compare::answers::Mended;
use compare::boundaries;
use compare::compared::{Compared, Function};
use compare::damage::{
    MENDED, POINT_COUNT, POINT_OFFSET, RECORD_LENGTH, damage, random_double_bits, spoil,
};
use compare::rng::{Rng, seeds};
use compare::spec::{CLASSIFICATION, FileSpec, POINT_SIZES, SheetSpec, WITHHELD, random_point};

/// Mends a file, and asks of the answer and the file what holds for every one.
fn mend(compared: &mut Compared, file: &[u8]) -> (Mended, Vec<u8>) {
    let checked = compared.check_file(file);
    let (answer, mended) = compared.mend(file);
    if answer.number == 0 {
        assert!(checked == 0 || checked == 9);
        assert_only_marked_fields_changed(&answer, file, &mended);
        assert_tells_the_truth(compared, file, &mended);
    } else {
        assert!(checked == answer.number || (checked, answer.number) == (9, 10));
        assert_eq!(answer.marks, [0; 12]);
    }
    (answer, mended)
}

fn assert_only_marked_fields_changed(answer: &Mended, file: &[u8], mended: &[u8]) {
    let mut undone = mended.to_vec();
    for (field, mark) in MENDED.iter().zip(answer.marks) {
        let (old, new) = (field.get(file), field.get(mended));
        assert_eq!(mark, u64::from(old != new), "mark of {}", field.name);
        field.set(&mut undone, old);
    }
    assert_eq!(undone, file);
}

/// The same file with no point withheld, so that a sheet can keep them all.
fn none_withheld(file: &[u8]) -> Vec<u8> {
    let [offset, length] = [POINT_OFFSET, RECORD_LENGTH].map(|field| field.get(file) as usize);
    let mut file = file.to_vec();
    for point in file[offset..].chunks_exact_mut(length) {
        point[CLASSIFICATION] &= !WITHHELD;
    }
    file
}

/// The number of points is the smaller one, all else is as in a release of all points, and mending again does nothing.
fn assert_tells_the_truth(compared: &mut Compared, file: &[u8], mended: &[u8]) {
    let room = file.len() as u64 - POINT_OFFSET.get(file);
    let fitting = room / RECORD_LENGTH.get(file);
    let count = POINT_COUNT.get(file).min(fitting);
    assert_eq!(POINT_COUNT.get(mended), count);
    let before = vec![0xEE; file.len()];
    let all = SheetSpec::all_classes().bytes();
    let (released, out) = compared.release(&none_withheld(mended), &all, &before);
    assert_eq!((released.number, released.points), (0, count));
    for field in MENDED {
        assert_eq!(field.get(mended), field.get(&out), "{}", field.name);
    }
    assert_eq!(compared.check_file(mended), 0);
    let again = compared.mend(mended);
    assert_eq!(again, (Mended::default(), mended.to_vec()));
}

/// Releases under several sheets give the same numbers and bytes before and after.
fn assert_releases_stay(compared: &mut Compared, rng: &mut Rng, file: &[u8], mended: &[u8]) {
    let junk = rng.bytes(file.len());
    let random = [(); 3].map(|()| SheetSpec::random(rng));
    for sheet in [SheetSpec::default(), SheetSpec::all_classes()]
        .iter()
        .chain(&random)
    {
        let before = compared.release(file, &sheet.bytes(), &junk);
        assert_eq!(before.0.number, 0);
        let after = compared.release(mended, &sheet.bytes(), &junk);
        assert_eq!(after, before);
    }
}

/// A file of this format with so many random points of so many extra bytes, and nothing behind them.
fn with_points(rng: &mut Rng, format: u8, extra: u16, points: usize) -> FileSpec {
    let record_length = POINT_SIZES[usize::from(format)] + extra;
    FileSpec {
        record_length,
        points: (0..points)
            .map(|_| random_point(rng, record_length))
            .collect(),
        trailing: Vec::new(),
        ..FileSpec::common(format)
    }
}

/// A file of this format whose header tells the truth about its four points.
fn true_file(compared: &mut Compared, format: u8) -> Vec<u8> {
    let mut rng = Rng::new(format.into());
    let spec = with_points(&mut rng, format, 3, 4);
    let (answer, file) = mend(compared, &spec.bytes());
    assert_eq!(answer.number, 0);
    file
}

/// The answer that marks this field alone.
fn only(index: usize) -> Mended {
    let mut answer = Mended::default();
    answer.marks[index] = 1;
    answer
}

#[test]
fn each_number_but_9_is_given_exactly_on_its_side_of_the_boundary() {
    let mut compared = Compared::new();
    let due = |number| if number == 9 { 0 } else { number };
    for number in 1..=10 {
        let mut given = BTreeSet::new();
        for case in boundaries::of(number) {
            compared.case(&case.name);
            assert_eq!(compared.check_file(&case.file), case.number);
            let (answer, _) = mend(&mut compared, &case.file);
            assert_eq!(answer.number, due(case.number), "{}", case.name);
            given.insert(answer.number);
        }
        assert_eq!(given, [0, due(number)].into());
    }
    compared.assert_all_reached(&[Function::Mend]);
}

/// A file with these faults, in the order of their numbers, is refused with the first that is not 9.
fn assert_first_is_given(compared: &mut Compared, faults: &[u64]) {
    let mut file = FileSpec::common(1).bytes();
    faults
        .iter()
        .rev()
        .for_each(|&fault| spoil(&mut file, fault));
    compared.case(format!("faults {faults:?}"));
    assert_eq!(compared.check_file(&file), faults[0]);
    let due = faults.iter().find(|&&fault| fault != 9).unwrap_or(&0);
    assert_eq!(
        mend(compared, &file).0.number,
        *due,
        "with faults {faults:?}"
    );
}

#[test]
fn of_several_faults_the_first_gives_its_number_and_9_is_none() {
    let mut compared = Compared::new();
    for first in 1..=10 {
        assert_first_is_given(&mut compared, &[first]);
        assert_first_is_given(&mut compared, &(first..=10).collect::<Vec<_>>());
        for second in first + 1..=10 {
            assert_first_is_given(&mut compared, &[first, second]);
        }
    }
    compared.assert_all_reached(&[Function::Mend]);
}

#[test]
fn the_number_of_points_is_the_smaller_of_the_stated_and_those_that_fit() {
    let mut rng = Rng::new(1);
    let mut compared = Compared::new();
    let stated = [0, 1, 2, 3, 4, 5, 1 << 16, 1 << 31, u32::MAX.into()];
    for (format, extra) in [0, 1, 2, 3].into_iter().zip([0, 1, 36, 0]) {
        let spec = with_points(&mut rng, format, extra, 5);
        let (file, length) = (spec.bytes(), usize::from(spec.record_length));
        let rooms = (0..=4).flat_map(|fitting| [0, 1, length - 1].map(|more| (fitting, more)));
        for (fitting, more) in rooms {
            let end = spec.point_offset() + fitting * length + more;
            for stated in stated {
                let file = POINT_COUNT.with(&file[..end], stated);
                compared.case(format!(
                    "format {format}, {stated} stated, {fitting} fit and {more} bytes"
                ));
                let too_many = stated > fitting as u64;
                let number = if too_many { 9 } else { 0 };
                assert_eq!(compared.check_file(&file), number);
                let (answer, mended) = mend(&mut compared, &file);
                assert_eq!((answer.number, answer.marks[0]), (0, too_many.into()));
                assert_eq!(POINT_COUNT.get(&mended), stated.min(fitting as u64));
            }
        }
    }
}

#[test]
fn without_points_all_bins_are_zero_and_all_bounds_plus_zero() {
    let mut rng = Rng::new(2);
    let mut compared = Compared::new();
    let mut bounds = [0.0, -0.0, f64::NAN, -f64::NAN, 1.0, f64::INFINITY].map(f64::to_bits);
    let most = u32::MAX.into();
    for _ in 0..6 {
        bounds.rotate_left(1);
        let spec = FileSpec {
            old_by_return: [0, 1, 256, 1 << 31, u32::MAX],
            old_bounds: bounds,
            ..with_points(&mut rng, 1, 0, 2)
        };
        let offset = spec.point_offset();
        // None stated; none that fits whole; the offset at the end of the file.
        for (length, stated) in [
            (offset + 56, 0),
            (offset + 27, 1),
            (offset, 0),
            (offset, most),
        ] {
            let file = POINT_COUNT.with(&spec.bytes()[..length], stated);
            let (answer, mended) = mend(&mut compared, &file);
            let count = u64::from(stated > 0);
            let marks = bounds.map(|bits| u64::from(bits != 0));
            assert_eq!(answer.marks[..6], [count, 0, 1, 1, 1, 1]);
            assert_eq!(answer.marks[6..], marks);
            assert_eq!(MENDED.map(|field| field.get(&mended)), [0; 12]);
        }
    }
}

#[test]
fn each_field_that_lies_alone_is_marked_alone_and_set_right() {
    let mut compared = Compared::new();
    for format in 0..4 {
        let file = true_file(&mut compared, format);
        for (index, field) in MENDED.iter().enumerate() {
            let truth = field.get(&file);
            let flipped = (0..8 * field.width).map(|bit| truth ^ 1 << bit);
            // A number of points that is too small is no lie: the rest follows it.
            let lies = flipped.filter(|&lie| index > 0 || lie > truth);
            for lie in lies {
                compared.case(format!("format {format}, {} {lie:#x}", field.name));
                let answer = mend(&mut compared, &field.with(&file, lie));
                assert_eq!(answer, (only(index), file.clone()), "{}", field.name);
            }
        }
    }
}

#[test]
fn all_fields_that_lie_at_once_are_marked_and_none_that_tells_the_truth() {
    let mut compared = Compared::new();
    for format in 0..4 {
        let file = true_file(&mut compared, format);
        let mut lying = file.clone();
        for field in MENDED {
            field.set(&mut lying, !field.get(&file));
        }
        let all = Mended {
            number: 0,
            marks: [1; 12],
        };
        assert_eq!(mend(&mut compared, &lying), (all, file.clone()));
        assert_eq!(
            mend(&mut compared, &file),
            (Mended::default(), file.clone())
        );
    }
}

#[test]
fn a_stated_minus_zero_nan_or_infinity_is_no_bound() {
    let mut compared = Compared::new();
    let zeros = FileSpec {
        offset: [0.0, -0.0, 0.0],
        points: vec![vec![0; 28]; 2],
        trailing: Vec::new(),
        ..FileSpec::common(1)
    };
    let (_, zeros) = mend(&mut compared, &zeros.bytes());
    let others = true_file(&mut compared, 1);
    let never = [f64::NAN, -f64::NAN, f64::INFINITY, -f64::INFINITY, -0.0].map(f64::to_bits);
    let signalling = [0x7FF0_0000_0000_0001, 0xFFF7_FFFF_FFFF_FFFF];
    for (index, field) in MENDED.iter().enumerate().skip(6) {
        assert_eq!(field.get(&zeros), 0, "{}", field.name);
        for &bits in never.iter().chain(&signalling) {
            for file in [&zeros, &others] {
                let answer = mend(&mut compared, &field.with(file, bits));
                assert_eq!(answer, (only(index), file.clone()));
            }
        }
    }
}

#[test]
fn every_return_byte_falls_into_its_bin() {
    let mut compared = Compared::new();
    for byte in 0..=255u8 {
        let mut point = vec![0; 20];
        point[14] = byte;
        let spec = FileSpec {
            points: vec![point; 3],
            ..FileSpec::bare(0)
        };
        let (_, mended) = mend(&mut compared, &spec.bytes());
        let bins: Vec<u64> = MENDED[1..6]
            .iter()
            .map(|field| field.get(&mended))
            .collect();
        let number = u64::from(byte & 7);
        let due: Vec<u64> = (1..=5).map(|bin| 3 * u64::from(bin == number)).collect();
        assert_eq!(bins, due, "return byte {byte:#x}");
    }
}

#[test]
fn bounds_are_the_coordinates_of_the_extremes_of_points_of_any_class() {
    let point = |xyz: [i32; 3], class: u8| {
        let mut point = xyz.map(i32::to_le_bytes).concat();
        point.extend([0, 0, 1, class, 0, 0, 0, 0]);
        point
    };
    let spec = FileSpec {
        scale: [0.5, 1.0, 2.0],
        offset: [10.0, 0.0, -1.0],
        points: vec![
            point([-50, -7, i32::MIN], 255),
            point([-70, 3, i32::MAX], 0x80),
            point([-60, 0, 0], 2),
        ],
        ..FileSpec::bare(0)
    };
    let (_, mended) = mend(&mut Compared::new(), &spec.bytes());
    let bounds: Vec<f64> = MENDED[6..]
        .iter()
        .map(|field| f64::from_bits(field.get(&mended)))
        .collect();
    let (highest, lowest) = (4_294_967_293.0, -4_294_967_297.0);
    assert_eq!(bounds, [-15.0, -25.0, 3.0, -7.0, highest, lowest]);
}

/// Sets some of the mended fields to anything; counts are often near the number of points.
fn lie(rng: &mut Rng, file: &mut [u8]) {
    let points = POINT_COUNT.get(file);
    for _ in 0..rng.from_to(1, 12) {
        let field = rng.pick(&MENDED);
        let near = (points + rng.below(4) as u64).saturating_sub(2);
        let value = match field.width {
            8 => random_double_bits(rng),
            _ if rng.chance(60) => near,
            _ => rng.next() | rng.pick(&[0, u64::MAX]),
        };
        field.set(file, value);
    }
}

#[test]
fn random_files_sound_lying_and_damaged_are_mended_equally() {
    for seed in seeds() {
        let mut rng = Rng::new(seed);
        let mut compared = Compared::new();
        let (mut passed, mut past_the_end) = (0, 0);
        for round in 0..12_000 {
            let mut file = FileSpec::random(&mut rng).bytes();
            match rng.below(4) {
                0 => {}
                1 => damage(&mut rng, &mut file),
                _ => lie(&mut rng, &mut file),
            }
            compared.case(format!("seed {seed}, file {round}"));
            let checked = compared.check_file(&file);
            let (answer, mended) = mend(&mut compared, &file);
            if checked == 0 {
                passed += 1;
                assert_releases_stay(&mut compared, &mut rng, &file, &mended);
            }
            past_the_end += u32::from(checked == 9 && answer.number == 0);
        }
        compared.assert_all_reached(&[Function::Mend]);
        assert!(passed > 3000, "only {passed} files passed");
        assert!(past_the_end > 1000, "9 was mended {past_the_end} times");
    }
}

#[test]
fn many_points_and_long_records_are_mended_equally() {
    let mut rng = Rng::new(9);
    let mut compared = Compared::new();
    for (format, extra, points) in [(0, 0, 60_000), (1, 0, 60_000), (2, 300, 999)] {
        let exact = with_points(&mut rng, format, extra, points).bytes();
        let most = POINT_COUNT.with(&exact, u32::MAX.into());
        let (_, due) = mend(&mut compared, &exact);
        let (answer, mended) = mend(&mut compared, &most);
        assert_eq!(answer.marks[0], 1);
        assert!(mended == due, "format {format}, {points} points");
    }
    let longest = FileSpec {
        record_length: 65535,
        points: vec![vec![0x9C; 65535]; 3],
        ..FileSpec::bare(3)
    };
    let most = POINT_COUNT.with(&longest.bytes(), u32::MAX.into());
    for (length, points) in [(most.len(), 3), (most.len() - 1, 2)] {
        let (_, mended) = mend(&mut compared, &most[..length]);
        assert_eq!(POINT_COUNT.get(&mended), points);
    }
}

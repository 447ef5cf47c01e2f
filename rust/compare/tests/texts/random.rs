//! Random files and sheets whose texts are written in another way: with other spaces at their end, and other bytes
//! behind their zero.

use compare::compared::Compared;
use compare::rng::{Rng, seeds};
use compare::spec::{
    FileSpec, LineSpec, RecordSpec, SheetSpec, cut, keys_of, random_geokeys, with_tail,
};

/// The same cut texts in every field.
fn written_anew(rng: &mut Rng, spec: &FileSpec) -> FileSpec {
    let mut spec = spec.clone();
    spec.system = with_tail(rng, &spec.system);
    spec.software = with_tail(rng, &spec.software);
    for record in &mut spec.records {
        record.user = with_tail(rng, &record.user);
        record.description = with_tail(rng, &record.description);
    }
    spec
}

/// The same cut names on every line.
fn sheet_anew(rng: &mut Rng, sheet: &SheetSpec) -> SheetSpec {
    let lines = sheet.lines.iter().map(|line| match line {
        LineSpec::Record(user, record_id) => LineSpec::Record(with_tail(rng, user), *record_id),
        classes => classes.clone(),
    });
    SheetSpec::new(lines.collect::<Vec<_>>())
}

/// A sheet on which the name of a record of the file often stands.
fn sheet_for(rng: &mut Rng, spec: &FileSpec) -> SheetSpec {
    let mut sheet = SheetSpec::random(rng);
    if !spec.records.is_empty() && !sheet.lines.is_empty() {
        let (record, line) = (rng.pick(&spec.records), rng.below(sheet.lines.len()));
        sheet.lines[line] = LineSpec::Record(with_tail(rng, &record.user), record.record_id);
    }
    sheet
}

/// A name for how a text stands in its field, and whether it stands so.
type Kind = (&'static str, fn(&[u8]) -> bool);

const KINDS: [Kind; 8] = [
    ("spaces, then a zero", |field| {
        behind(field).starts_with(b" ") && field.contains(&0)
    }),
    ("spaces up to the end", |field| {
        behind(field).starts_with(b" ") && !field.contains(&0)
    }),
    ("a space in the last byte alone", |field| {
        behind(field) == b" "
    }),
    ("a zero, then a space", |field| {
        behind(field).starts_with(b"\0 ")
    }),
    ("spaces alone", |field| {
        field.iter().all(|&byte| byte == b' ')
    }),
    ("a space in front", |field| cut(field).starts_with(b" ")),
    ("a space within", |field| {
        cut(field).trim_ascii_start().contains(&b' ')
    }),
    ("the whole field", |field| behind(field).is_empty()),
];

/// What stands behind the cut text.
fn behind(field: &[u8]) -> &[u8] {
    &field[cut(field).len()..]
}

/// How often a text of each kind stood in a field.
type Counts = [u32; KINDS.len()];

fn count(counts: &mut Counts, field: &[u8]) {
    for (count, (_, is_it)) in counts.iter_mut().zip(KINDS) {
        *count += u32::from(is_it(field));
    }
}

fn assert_all_counted(counts: &Counts, of: &str) {
    for (count, (name, _)) in counts.iter().zip(KINDS) {
        assert!(*count > 20, "{of}: {name}, {count} times");
    }
}

/// Counts the names of kept records, and the texts of these records and of the header.
fn count_released(counts: &mut [Counts; 2], spec: &FileSpec, sheet: &SheetSpec) {
    let [names, texts] = counts;
    count(texts, &spec.system);
    count(texts, &spec.software);
    let kept = |record: &&RecordSpec| sheet.keeps_record(record);
    for record in spec.records.iter().filter(kept) {
        count(names, &record.user);
        count(texts, &record.description);
    }
}

#[test]
fn texts_written_in_another_way_release_the_same() {
    for seed in seeds() {
        let mut rng = Rng::new(seed);
        let mut compared = Compared::new();
        let mut counts = Default::default();
        let mut accepted = 0;
        for round in 0..8000 {
            let spec = FileSpec::random(&mut rng);
            let sheet = sheet_for(&mut rng, &spec);
            let files = [written_anew(&mut rng, &spec), spec];
            let sheets = [sheet_anew(&mut rng, &sheet), sheet];
            compared.case(format!("seed {seed}, file {round}"));
            let whole = files[0].bytes().len();
            let room = rng.pick(&[226, 300, whole, whole + 9]);
            let before = rng.bytes(room);
            let mut answers = Vec::new();
            for (file, sheet) in [(0, 0), (0, 1), (1, 0), (1, 1)] {
                let (file, sheet) = (files[file].bytes(), sheets[sheet].bytes());
                answers.push(compared.release(&file, &sheet, &before));
            }
            assert!(answers.iter().all(|answer| *answer == answers[0]));
            if answers[0].0.number == 0 {
                accepted += 1;
                count_released(&mut counts, &files[0], &sheets[0]);
            }
        }
        assert!((3000..7000).contains(&accepted), "{accepted} of 8000");
        assert_all_counted(&counts[0], "names of kept records");
        assert_all_counted(&counts[1], "other released texts");
    }
}

#[test]
fn geokeys_under_a_name_written_in_another_way_have_the_same_value() {
    for seed in seeds() {
        let mut rng = Rng::new(seed);
        let mut compared = Compared::new();
        // Not found and found, where a name has a space in its last byte.
        let mut reached = [0; 2];
        for round in 0..8000 {
            let mut spec = FileSpec::random(&mut rng);
            spec.records.splice(0..0, random_geokeys(&mut rng));
            let other = written_anew(&mut rng, &spec);
            compared.case(format!("seed {seed}, file {round}"));
            let spaced = |record: &RecordSpec| record.user == *b"LASF_Projection ";
            for key in keys_of(&spec.records) {
                let answer = compared.geokey_find(&spec.bytes(), key);
                assert_eq!(compared.geokey_find(&other.bytes(), key), answer);
                let counted = other.records.iter().any(spaced);
                reached[usize::from(answer.number == 0)] += u32::from(counted);
            }
        }
        assert!(reached.iter().all(|&times| times > 1000), "{reached:?}");
    }
}

//! Files that differ only in withheld points: their releases are the same, in every byte and number.

use compare::compared::Compared;
use compare::rng::{Rng, seeds};
use compare::rooms::release;
use compare::spec::{
    BoxSpec, CLASSIFICATION, FileSpec, KEY_POINT, LineSpec, SYNTHETIC, SheetSpec, WITHHELD,
    is_withheld, random_classification, random_point_of,
};

/// A change of a file's withheld points, of which it has one at least.
type Change = fn(&mut Rng, &mut FileSpec);

const CHANGES: [(&str, Change); 10] = [
    ("none of them", |_, spec| {
        spec.points.retain(|point| !is_it(point))
    }),
    ("more of them", |rng, spec| {
        for _ in 0..rng.from_to(2, 6) {
            let byte = random_classification(rng) | WITHHELD;
            insert(rng, spec, byte);
        }
    }),
    ("fewer of them", |_, spec| {
        let last = spec.points.iter().rposition(|point| is_it(point));
        spec.points.remove(last.expect("one is withheld"));
    }),
    ("other fields", |rng, spec| {
        let length = spec.record_length;
        each(spec, |point| {
            *point = random_point_of(rng, length, point[CLASSIFICATION])
        });
    }),
    ("the highest coordinates", |_, spec| {
        each(spec, |point| {
            point[..12].copy_from_slice(&[0xFF, 0xFF, 0xFF, 0x7F].repeat(3))
        });
    }),
    ("the lowest coordinates", |_, spec| {
        each(spec, |point| {
            point[..12].copy_from_slice(&[0, 0, 0, 0x80].repeat(3))
        });
    }),
    ("another return number", |rng, spec| {
        each(spec, |point| point[14] ^= rng.from_to(1, 7) as u8);
    }),
    ("another class", |rng, spec| {
        each(spec, |point| {
            point[CLASSIFICATION] ^= rng.from_to(1, 31) as u8
        });
    }),
    ("other flags", |rng, spec| {
        let flags = [SYNTHETIC, KEY_POINT, SYNTHETIC | KEY_POINT];
        each(spec, |point| point[CLASSIFICATION] ^= rng.pick(&flags));
    }),
    ("other places", |rng, spec| {
        let (withheld, others) = spec.points.drain(..).partition(|point| is_it(point));
        spec.points = others;
        for point in Vec::into_iter(withheld) {
            let place = rng.from_to(0, spec.points.len());
            spec.points.insert(place, point);
        }
    }),
];

fn is_it(point: &[u8]) -> bool {
    is_withheld(point[CLASSIFICATION])
}

/// Changes each withheld point.
fn each(spec: &mut FileSpec, change: impl FnMut(&mut Vec<u8>)) {
    let withheld = spec.points.iter_mut().filter(|point| is_it(point));
    withheld.for_each(change);
}

/// Puts a point of this classification byte anywhere among the others.
fn insert(rng: &mut Rng, spec: &mut FileSpec, byte: u8) {
    let place = rng.from_to(0, spec.points.len());
    spec.points
        .insert(place, random_point_of(rng, spec.record_length, byte));
}

/// A file with points of any kind, one of them at least withheld and one of class 2 kept.
fn file(rng: &mut Rng) -> FileSpec {
    let mut spec = FileSpec::random(rng);
    insert(rng, &mut spec, 2);
    insert(rng, &mut spec, 2 | WITHHELD);
    spec
}

/// Sheets that keep points: all that are not withheld, or some of them. Where there are boxes, one holds every point.
fn sheets(rng: &mut Rng) -> [SheetSpec; 3] {
    let mut random = SheetSpec::random(rng);
    random.lines.truncate(62);
    random.lines.push(LineSpec::Classes(2, 2));
    if random.has_boxes() {
        random.lines.push(LineSpec::Box(BoxSpec::WHOLE));
    }
    let lines = [LineSpec::Classes(2, 2), LineSpec::Classes(20, 200)];
    [SheetSpec::all_classes(), SheetSpec::new(lines), random]
}

/// Both files have the same releases, under sheets that keep points and under the empty one.
fn assert_same(compared: &mut Compared, rng: &mut Rng, [one, other]: [&FileSpec; 2]) {
    let [one, other] = [one.bytes(), other.bytes()];
    for sheet in sheets(rng).iter().chain([&SheetSpec::default()]) {
        let first = release(compared, rng, &one, &sheet.bytes());
        let second = release(compared, rng, &other, &sheet.bytes());
        assert_eq!(first, second, "{sheet:?}");
        assert_eq!(first[0].0.points > 0, !sheet.lines.is_empty());
    }
}

#[test]
fn withheld_points_changed_in_one_way_leave_no_trace() {
    for seed in seeds() {
        let (mut rng, mut compared) = (Rng::new(seed), Compared::new());
        for (name, change) in CHANGES {
            let mut differing = 0;
            for round in 0..150 {
                let spec = file(&mut rng);
                let mut other = spec.clone();
                change(&mut rng, &mut other);
                differing += u32::from(spec.points != other.points);
                compared.case(format!("seed {seed}, {name}, pair {round}"));
                assert_same(&mut compared, &mut rng, [&spec, &other]);
            }
            assert!(differing > 100, "{name}: only {differing} pairs differ");
        }
    }
}

#[test]
fn withheld_points_changed_in_every_way_leave_no_trace() {
    for seed in seeds() {
        let (mut rng, mut compared) = (Rng::new(seed), Compared::new());
        for round in 0..1000 {
            let spec = file(&mut rng);
            let mut other = spec.clone();
            for (_, change) in CHANGES {
                change(&mut rng, &mut other);
            }
            assert!(other.points.iter().any(|point| is_it(point)));
            assert_ne!(spec.points, other.points);
            compared.case(format!("seed {seed}, pair {round}"));
            assert_same(&mut compared, &mut rng, [&spec, &other]);
        }
    }
}

#[test]
fn a_file_of_withheld_points_alone_releases_as_one_of_none() {
    for seed in seeds() {
        let (mut rng, mut compared) = (Rng::new(seed), Compared::new());
        let all = SheetSpec::all_classes().bytes();
        for round in 0..300 {
            let mut spec = FileSpec::random(&mut rng);
            let none = FileSpec {
                points: Vec::new(),
                ..spec.clone()
            };
            insert(&mut rng, &mut spec, WITHHELD);
            for point in &mut spec.points {
                point[CLASSIFICATION] |= WITHHELD;
            }
            compared.case(format!("seed {seed}, file {round}"));
            let [first, second] =
                [spec, none].map(|spec| release(&mut compared, &mut rng, &spec.bytes(), &all));
            assert_eq!(first, second);
            assert_eq!(first[0].0.points, 0);
            assert_eq!(first[0].1[179..227], [0; 48]);
        }
    }
}

//! Demand 3 on the library itself: output and numbers depend on the public
//! part and the sheet alone, and on all of the public part.

use compare::answers::Released;
use compare::compared::Compared;
use compare::partly_kept::{
    DROPPED_BYTES, DROPPED_NAMES, KEPT_BYTES, KEPT_NAMES, PRIVATE, mixed_file, point, record, sheet,
};
use compare::rng::{Rng, seeds};
use compare::spec::{
    CLASSIFICATION, FileSpec, POINT_SIZES, RecordSpec, SheetSpec, WITHHELD, cut, padded,
    random_text,
};

/// Releases two files into outputs of one length that held different junk.
fn release_both(
    compared: &mut Compared,
    rng: &mut Rng,
    [first, second]: [&FileSpec; 2],
    length: usize,
) -> [(Released, Vec<u8>); 2] {
    [first, second].map(|spec| {
        let junk = rng.bytes(length);
        let (answer, out) = compared.release(&spec.bytes(), &sheet().bytes(), &junk);
        assert!(answer.number == 0 || out == junk);
        (answer, out)
    })
}

fn needed(compared: &mut Compared, spec: &FileSpec) -> usize {
    let (answer, _) = compared.release(&spec.bytes(), &sheet().bytes(), &[]);
    assert_eq!(answer.number, 30);
    answer.length as usize
}

/// The same numbers and bytes for both, where the output is long enough and
/// where it is not.
fn assert_same(compared: &mut Compared, rng: &mut Rng, pair: [&FileSpec; 2]) {
    let length = needed(compared, pair[0]);
    for room in [length, length + rng.from_to(1, 100)] {
        let [first, second] = release_both(compared, rng, pair, room);
        assert_eq!(first.0.number, 0);
        assert_eq!(first, second);
    }
    let too_short = Released {
        number: 30,
        length: length as u64,
        ..Released::default()
    };
    for room in [length - 1, rng.below(length)] {
        let [first, second] = release_both(compared, rng, pair, room);
        assert_eq!([first.0, second.0], [too_short; 2]);
    }
}

#[test]
fn each_private_item_changed_alone_gives_the_same_output_and_numbers() {
    for seed in seeds() {
        let mut rng = Rng::new(seed);
        let mut compared = Compared::new();
        for (name, change) in PRIVATE {
            let mut differing = 0;
            for round in 0..400 {
                let spec = mixed_file(&mut rng);
                let mut other = spec.clone();
                change(&mut rng, &mut other);
                differing += u32::from(spec.bytes() != other.bytes());
                compared.case(format!("seed {seed}, {name}, pair {round}"));
                assert_same(&mut compared, &mut rng, [&spec, &other]);
            }
            assert!(differing > 150, "{name}: only {differing} pairs differ");
        }
    }
}

#[test]
fn all_private_items_changed_together_give_the_same_output_and_numbers() {
    for seed in seeds() {
        let mut rng = Rng::new(seed);
        let mut compared = Compared::new();
        for round in 0..5000 {
            let spec = mixed_file(&mut rng);
            let mut other = spec.clone();
            for (_, change) in PRIVATE {
                change(&mut rng, &mut other);
            }
            assert_ne!(spec.bytes(), other.bytes());
            compared.case(format!("seed {seed}, pair {round}"));
            assert_same(&mut compared, &mut rng, [&spec, &other]);
        }
    }
}

/// A file with three differing kept records and four differing kept points,
/// texts that can grow and shrink, and unkept things between them.
fn public_base(rng: &mut Rng) -> FileSpec {
    let mut spec = FileSpec::random(rng);
    spec.record_length = spec.record_length.max(POINT_SIZES[3]);
    spec.system = middling_text(rng);
    spec.software = middling_text(rng);
    spec.scale = [0.01, 0.25, 1.5];
    spec.offset = [0.0, -0.0, 12345.5];
    spec.records = Vec::new();
    for (index, name) in [7u8, 8, 9].into_iter().zip([KEPT_NAMES[0]; 3]) {
        spec.records.push(record(rng, &DROPPED_NAMES));
        let mut kept = record(rng, &[name]);
        kept.description = middling_text(rng);
        kept.payload = vec![index; 12];
        spec.records.push(kept);
    }
    spec.points = Vec::new();
    for index in 0..4 {
        spec.points
            .push(point(rng, spec.record_length, &DROPPED_BYTES));
        let mut kept = point(rng, spec.record_length, &KEPT_BYTES);
        kept[19] = index;
        spec.points.push(kept);
    }
    spec
}

/// A text that is neither empty nor fills its field.
fn middling_text<const N: usize>(rng: &mut Rng) -> [u8; N] {
    loop {
        let text: [u8; N] = random_text(rng);
        if (2..N - 1).contains(&cut(&text).len()) {
            return text;
        }
    }
}

/// Files that each differ from the base in one public item, with its name.
type Changed = Vec<(String, FileSpec)>;

fn changed(
    base: &FileSpec,
    name: impl Into<String>,
    change: impl FnOnce(&mut FileSpec),
) -> (String, FileSpec) {
    let mut spec = base.clone();
    change(&mut spec);
    (name.into(), spec)
}

/// The text with one byte changed, at each place before its cut, then a
/// shorter one, then a longer one.
fn changed_texts<const N: usize>(text: &[u8; N]) -> Vec<[u8; N]> {
    let length = cut(text).len();
    let set = |place: usize, byte: u8| {
        let mut text = *text;
        text[place] = byte;
        text
    };
    let other = |byte: u8| if byte == 1 { 2 } else { byte ^ 1 };
    let mut texts: Vec<_> = (0..length)
        .map(|place| set(place, other(text[place])))
        .collect();
    texts.push(set(length - 1, 0));
    texts.push(set(length, b'+'));
    texts
}

fn header_changes(base: &FileSpec) -> Changed {
    let mut list = Vec::new();
    for place in 0..20 {
        let name = format!("header byte {}", place + 4);
        list.push(changed(base, name, |spec| spec.front[place] ^= 0x10));
    }
    for bit in 0..16 {
        list.push(changed(base, format!("day, bit {bit}"), |spec| {
            spec.day ^= 1 << bit
        }));
        list.push(changed(base, format!("year, bit {bit}"), |spec| {
            spec.year ^= 1 << bit
        }));
    }
    for format in (0..4).filter(|&format| format != base.format) {
        list.push(changed(base, format!("format {format}"), |spec| {
            spec.format = format
        }));
    }
    list.extend(header_text_changes(base));
    list.extend(scaling_changes(base));
    list
}

fn header_text_changes(base: &FileSpec) -> Changed {
    let systems = changed_texts(&base.system).into_iter().enumerate();
    let softwares = changed_texts(&base.software).into_iter().enumerate();
    let system =
        |(index, text)| changed(base, format!("system, {index}"), |spec| spec.system = text);
    let software = |(index, text)| {
        changed(base, format!("software, {index}"), |spec| {
            spec.software = text
        })
    };
    systems.map(system).chain(softwares.map(software)).collect()
}

fn scaling_changes(base: &FileSpec) -> Changed {
    let mut list = Vec::new();
    for axis in 0..3 {
        let (scale, offset) = (base.scale[axis].next_up(), base.offset[axis]);
        let mut push = |name: &str, change: &dyn Fn(&mut FileSpec)| {
            list.push(changed(base, format!("{name} {axis}"), change));
        };
        push("scale", &|spec| spec.scale[axis] = scale);
        push("offset", &|spec| spec.offset[axis] = offset.next_up());
        push("negated offset", &|spec| spec.offset[axis] = -offset);
    }
    list
}

/// The record length is public also where no point is kept.
fn record_length_changes(base: &FileSpec) -> Changed {
    (1..=3)
        .map(|more| {
            changed(base, format!("record length + {more}"), |spec| {
                spec.record_length += more;
                let length = spec.record_length.into();
                spec.points
                    .iter_mut()
                    .for_each(|point| point.resize(length, 0));
            })
        })
        .collect()
}

fn record_changes(base: &FileSpec) -> Changed {
    let mut list: Changed = [1, 3, 5]
        .into_iter()
        .flat_map(|at| one_record_changes(base, at))
        .collect();
    for (one, other) in [(1, 3), (3, 5), (1, 5)] {
        let name = format!("records {one} and {other} exchanged");
        list.push(changed(base, name, |spec| spec.records.swap(one, other)));
    }
    list
}

fn one_record_changes(base: &FileSpec, at: usize) -> Changed {
    let mut list = Vec::new();
    let record = &base.records[at];
    let mut push = |name: String, change: &dyn Fn(&mut Vec<RecordSpec>)| {
        let name = format!("record {at}: {name}");
        list.push(changed(base, name, |spec| change(&mut spec.records)));
    };
    push("user ID".into(), &|records| {
        records[at].user = padded(b"users")
    });
    push("record ID".into(), &|records| records[at].record_id = 8);
    for (index, text) in changed_texts(&record.description).into_iter().enumerate() {
        push(format!("description, {index}"), &|records| {
            records[at].description = text
        });
    }
    for place in 0..record.payload.len() {
        push(format!("payload byte {place}"), &|records| {
            records[at].payload[place] ^= 0x80
        });
    }
    push("longer payload".into(), &|records| {
        records[at].payload.push(0)
    });
    push("shorter payload".into(), &|records| {
        records[at].payload.truncate(11)
    });
    push("removed".into(), &|records| drop(records.remove(at)));
    push("twice".into(), &|records| {
        records.insert(at, records[at].clone())
    });
    list
}

fn point_changes(base: &FileSpec) -> Changed {
    let mut list = Vec::new();
    for at in [1, 3, 5, 7] {
        let name = |what: &str| format!("point {at}: {what}");
        for place in (0..usize::from(base.record_length)).filter(|&place| place != CLASSIFICATION) {
            let name = name(&format!("byte {place}"));
            list.push(changed(base, name, |spec| spec.points[at][place] ^= 0x40));
        }
        for byte in KEPT_BYTES
            .into_iter()
            .filter(|&byte| byte != base.points[at][CLASSIFICATION])
        {
            let name = name(&format!("classification byte {byte}"));
            list.push(changed(base, name, |spec| {
                spec.points[at][CLASSIFICATION] = byte
            }));
        }
        list.push(changed(base, name("class not kept"), |spec| {
            spec.points[at][CLASSIFICATION] = 0
        }));
        list.push(changed(base, name("withheld"), |spec| {
            spec.points[at][CLASSIFICATION] |= WITHHELD
        }));
        list.push(changed(base, name("removed"), |spec| {
            spec.points.remove(at);
        }));
        list.push(changed(base, name("twice"), |spec| {
            spec.points.insert(at, spec.points[at].clone());
        }));
    }
    for (one, other) in [(1, 3), (3, 5), (5, 7), (1, 7)] {
        let name = format!("points {one} and {other} exchanged");
        list.push(changed(base, name, |spec| spec.points.swap(one, other)));
    }
    list
}

/// Every change makes an output of one length differ.
fn assert_all_differ(changes: fn(&FileSpec) -> Changed, with_points: bool) {
    for seed in seeds() {
        let mut rng = Rng::new(seed);
        let mut compared = Compared::new();
        for round in 0..12 {
            let mut base = public_base(&mut rng);
            if !with_points {
                base.points
                    .retain(|point| DROPPED_BYTES.contains(&point[CLASSIFICATION]));
            }
            let length = needed(&mut compared, &base) + 2 * usize::from(base.record_length) + 150;
            for (name, other) in changes(&base) {
                compared.case(format!("seed {seed}, base {round}, {name}"));
                let [first, second] =
                    release_both(&mut compared, &mut rng, [&base, &other], length);
                assert_eq!([first.0.number, second.0.number], [0; 2], "{name}");
                assert_ne!(first.1, second.1, "seed {seed}, base {round}, {name}");
            }
        }
    }
}

#[test]
fn each_carried_header_field_changed_alone_changes_the_output() {
    assert_all_differ(header_changes, true);
    assert_all_differ(header_changes, false);
    assert_all_differ(record_length_changes, true);
    assert_all_differ(record_length_changes, false);
}

#[test]
fn each_item_of_a_kept_record_and_their_order_and_number_change_the_output() {
    assert_all_differ(record_changes, true);
    assert_all_differ(record_changes, false);
}

#[test]
fn each_byte_of_a_kept_point_and_their_order_and_number_change_the_output() {
    assert_all_differ(point_changes, true);
}

#[test]
fn a_released_file_releases_to_itself_with_and_without_the_zeros_behind_it() {
    for seed in seeds() {
        let mut rng = Rng::new(seed);
        let mut compared = Compared::new();
        for round in 0..4000 {
            let spec = mixed_file(&mut rng);
            let sheet = if rng.chance(50) {
                sheet()
            } else {
                SheetSpec::random_for(&mut rng, &spec)
            };
            let sheet = sheet.bytes();
            compared.case(format!("seed {seed}, file {round}"));
            let file = spec.bytes();
            let junk = rng.bytes(file.len() + 60);
            let (answer, out) = compared.release(&file, &sheet, &junk);
            assert_eq!(answer.number, 0);
            let alone = &out[..answer.length as usize];
            for again in [alone, &out] {
                let junk = rng.bytes(out.len());
                assert_eq!(
                    compared.release(again, &sheet, &junk),
                    (answer, out.clone())
                );
                let exact = rng.bytes(alone.len());
                assert_eq!(
                    compared.release(again, &sheet, &exact),
                    (answer, alone.to_vec())
                );
                let short = rng.bytes(alone.len() - 1);
                let (too_short, _) = compared.release(again, &sheet, &short);
                assert_eq!((too_short.number, too_short.length), (30, answer.length));
            }
        }
    }
}

#[test]
fn nothing_is_kept_of_a_released_file_under_the_empty_sheet_but_its_header() {
    let mut rng = Rng::new(5);
    let mut compared = Compared::new();
    for _ in 0..500 {
        let spec = mixed_file(&mut rng);
        let junk = rng.bytes(spec.bytes().len());
        let (_, out) = compared.release(&spec.bytes(), &sheet().bytes(), &junk);
        let direct = compared.release(&spec.bytes(), &[], &junk);
        assert_eq!(compared.release(&out, &[], &junk), direct);
        assert_eq!(direct.0.length, 227);
    }
}

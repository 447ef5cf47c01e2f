//! Files on both sides of the boundary of each file check.

use crate::damage::{
    FORMAT, HEADER_SIZE, MAJOR, MINOR, POINT_COUNT, POINT_OFFSET, RECORD_LENGTH, SCALING, VLR_COUNT,
};
use crate::spec::{FileSpec, POINT_SIZES, RecordSpec, projection};

/// A file with the number that its checks give.
#[derive(Debug, Clone)]
pub struct Case {
    pub name: String,
    pub file: Vec<u8>,
    pub number: u64,
}

fn case(name: impl Into<String>, file: Vec<u8>, number: u64) -> Case {
    Case {
        name: name.into(),
        file,
        number,
    }
}

/// The files at the boundary of this number, 1 to 10: some give it, some pass.
pub fn of(number: u64) -> Vec<Case> {
    match number {
        1 => below_227_bytes(),
        2 => signatures(),
        3 => versions(),
        4 => header_sizes(),
        5 => formats(),
        6 => record_lengths(),
        7 => point_offsets(),
        8 => [record_ends(), record_counts()].concat(),
        9 => [point_ends(), point_counts()].concat(),
        _ => scalings(),
    }
}

/// 1: below 227 bytes.
fn below_227_bytes() -> Vec<Case> {
    let bare = FileSpec::bare(0).bytes();
    let mut cases: Vec<Case> = (0..227)
        .map(|length| case(format!("{length} bytes"), bare[..length].to_vec(), 1))
        .collect();
    cases.push(case("227 bytes", bare, 0));
    cases
}

/// 2: every changed bit of the signature.
fn signatures() -> Vec<Case> {
    let file = FileSpec::common(0).bytes();
    let mut cases = vec![case("LASF", file.clone(), 0)];
    for place in 0..4 {
        for bit in 0..8 {
            let mut file = file.clone();
            file[place] ^= 1 << bit;
            cases.push(case(format!("bit {bit} of byte {place}"), file, 2));
        }
    }
    cases
}

/// 3: every version but 1.2.
fn versions() -> Vec<Case> {
    let file = FileSpec::common(0).bytes();
    let mut cases = Vec::new();
    for major in [0, 1, 2, 255] {
        for minor in 0..=255 {
            let file = MINOR.with(&MAJOR.with(&file, major), minor);
            let number = if (major, minor) == (1, 2) { 0 } else { 3 };
            cases.push(case(format!("version {major}.{minor}"), file, number));
        }
    }
    cases
}

/// 4: header sizes below 227 and above the file's length.
fn header_sizes() -> Vec<Case> {
    let bare = FileSpec::bare(0);
    let long = |extra: usize| FileSpec {
        header_extra: vec![7; extra],
        ..FileSpec::bare(0)
    };
    let with = |spec: &FileSpec, size: u64| HEADER_SIZE.with(&spec.bytes(), size);
    vec![
        case("header size 0", with(&bare, 0), 4),
        case("header size 226", with(&bare, 226), 4),
        case("header size 227", bare.bytes(), 0),
        case("header size 228 of 227", with(&bare, 228), 4),
        case("header size 65535 of 227", with(&bare, 65535), 4),
        case("header size 237 of 237", long(10).bytes(), 0),
        case("header size 238 of 237", with(&long(10), 238), 4),
        case("header size 65535 of 65535", long(65535 - 227).bytes(), 0),
        case(
            "header size 65535 of 65534",
            with(&long(65534 - 227), 65535),
            4,
        ),
        case(
            "header size 65535 of 65536",
            with_trailing(long(65535 - 227), 1),
            0,
        ),
    ]
}

fn with_trailing(spec: FileSpec, length: usize) -> Vec<u8> {
    FileSpec {
        trailing: vec![3; length],
        ..spec
    }
    .bytes()
}

/// 5: formats above 3.
fn formats() -> Vec<Case> {
    let wide = FileSpec {
        record_length: 40,
        ..FileSpec::bare(0)
    }
    .bytes();
    let cases = (0..=255).map(|format| {
        let number = if format > 3 { 5 } else { 0 };
        case(
            format!("format {format}"),
            FORMAT.with(&wide, format),
            number,
        )
    });
    cases.collect()
}

/// 6: record lengths below each format's size.
fn record_lengths() -> Vec<Case> {
    let mut cases = Vec::new();
    for (format, size) in POINT_SIZES.into_iter().enumerate() {
        let file = FileSpec::bare(format as u8).bytes();
        for length in [0, 1, 19, 20, 25, 26, 27, 28, 33, 34, 35, 255, 256, 65535] {
            let number = if length < u64::from(size) { 6 } else { 0 };
            let name = format!("format {format}, record length {length}");
            cases.push(case(name, RECORD_LENGTH.with(&file, length), number));
        }
    }
    cases
}

/// 7: point offsets below the header size and above the file's length.
fn point_offsets() -> Vec<Case> {
    let spec = FileSpec {
        header_extra: vec![1; 5],
        trailing: vec![2; 10],
        ..FileSpec::bare(2)
    };
    let offsets = [
        (0, 7),
        (227, 7),
        (231, 7),
        (232, 0),
        (233, 0),
        (241, 0),
        (242, 0),
        (243, 7),
        (1 << 16 | 232, 7),
        (1 << 31, 7),
        (u32::MAX.into(), 7),
    ];
    let cases = offsets.map(|(offset, number)| {
        let file = POINT_OFFSET.with(&spec.bytes(), offset);
        case(format!("offset {offset} of 242"), file, number)
    });
    cases.into()
}

/// 8: records that end one past the offset.
fn record_ends() -> Vec<Case> {
    let mut cases = Vec::new();
    for payload in [0, 1, 10, 255, 256, 65535] {
        let spec = FileSpec {
            records: vec![projection(1, vec![1; payload])],
            trailing: vec![2; 60],
            ..FileSpec::bare(0)
        };
        let (file, end) = (spec.bytes(), spec.point_offset() as u64);
        for (name, offset, number) in [
            ("ends at the offset", end, 0),
            ("ends before the offset", end + 1, 0),
            ("ends past the offset", end - 1, 8),
            ("has its header cut", 227 + 53, 8),
            ("has no room at all", 227, 8),
        ] {
            let name = format!("a record of payload {payload} {name}");
            cases.push(case(name, POINT_OFFSET.with(&file, offset), number));
        }
    }
    cases
}

/// 8: counts that cover more records than there are.
fn record_counts() -> Vec<Case> {
    let records: Vec<RecordSpec> = (0..3).map(|id| projection(id, vec![9; 20])).collect();
    let with_gap = |gap: usize, count: u64| {
        let spec = FileSpec {
            records: records.clone(),
            gap: vec![0; gap],
            trailing: vec![2; 200],
            ..FileSpec::bare(0)
        };
        VLR_COUNT.with(&spec.bytes(), count)
    };
    let none = FileSpec::bare(0).bytes();
    vec![
        case("three of three", with_gap(0, 3), 0),
        case("two of three", with_gap(0, 2), 0),
        case("none of three", with_gap(0, 0), 0),
        case("four of three", with_gap(0, 4), 8),
        case("four of three, gap 53", with_gap(53, 4), 8),
        case("four of three, gap 54", with_gap(54, 4), 0),
        case("five of three, gap 107", with_gap(107, 5), 8),
        case("five of three, gap 108", with_gap(108, 5), 0),
        case("2^32 - 1 of three", with_gap(0, u32::MAX.into()), 8),
        case("2^31 of three", with_gap(108, 1 << 31), 8),
        case("2^16 + 3 of three", with_gap(0, 1 << 16 | 3), 8),
        case("one of none", VLR_COUNT.with(&none, 1), 8),
        case(
            "2^32 - 1 of none",
            VLR_COUNT.with(&none, u32::MAX.into()),
            8,
        ),
    ]
}

/// 9: points that end one past the file.
fn point_ends() -> Vec<Case> {
    let mut cases = Vec::new();
    for format in 0..4 {
        for extra in [0, 1, 13] {
            let mut spec = FileSpec::common(format);
            spec.record_length += extra;
            let length = spec.record_length;
            spec.points
                .iter_mut()
                .for_each(|point| point.resize(length.into(), 5));
            let end = spec.points_end();
            let file = spec.bytes();
            let name = |what: &str| format!("format {format}, record length {length}: {what}");
            let four = POINT_COUNT.with(&file, 4);
            let next = end + usize::from(length);
            cases.push(case(name("ends at the end"), file[..end].to_vec(), 0));
            cases.push(case(name("ends one past"), file[..end - 1].to_vec(), 9));
            cases.push(case(
                name("ends before the end"),
                file[..end + 1].to_vec(),
                0,
            ));
            cases.push(case(
                name("one more ends at the end"),
                four[..next].to_vec(),
                0,
            ));
            cases.push(case(
                name("one more ends one past"),
                four[..next - 1].to_vec(),
                9,
            ));
        }
    }
    cases
}

/// 9: counts where a product or a sum would wrap.
fn point_counts() -> Vec<Case> {
    let file = FileSpec::common(0).bytes();
    let with =
        |count: u64, length: u64| RECORD_LENGTH.with(&POINT_COUNT.with(&file, count), length);
    vec![
        case("2^17 points of 2^15", with(1 << 17, 1 << 15), 9),
        case("2^31 points of 34", with(1 << 31, 34), 9),
        case("2^31 points of 2^15", with(1 << 31, 1 << 15), 9),
        case(
            "the most points of the most bytes",
            with(u32::MAX.into(), 65535),
            9,
        ),
        case("2^32 less the offset in bytes", with((1 << 32) / 20, 20), 9),
        case("the most points of 20", with(u32::MAX.into(), 20), 9),
        case("no points of the most bytes", with(0, 65535), 0),
    ]
}

/// 10: scales and offsets outside their ranges.
fn scalings() -> Vec<Case> {
    let (low, scale, high) = (2f64.powi(-40), 2f64.powi(20), 2f64.powi(40));
    let never = [
        f64::NAN,
        -f64::NAN,
        f64::INFINITY,
        f64::NEG_INFINITY,
        f64::MAX,
        f64::MIN,
    ];
    let signalling = [0x7FF0_0000_0000_0001, 0xFFF7_FFFF_FFFF_FFFF].map(f64::from_bits);
    let bad = [never.as_slice(), &signalling].concat();
    let small = [f64::from_bits(1), f64::MIN_POSITIVE, low.next_down(), 0.0];
    let good_scales = vec![low, low.next_up(), 0.01, 1.0, scale.next_down(), scale];
    let negative = [-0.0, -1.0, -low, -scale, -0.01];
    let bad_scales = [&bad, small.as_slice(), &negative, &[scale.next_up(), high]].concat();
    let good_sizes = [0.0, f64::from_bits(1), 0.01, 5e5, high.next_down(), high];
    let good_offsets = good_sizes.iter().flat_map(|&size| [size, -size]).collect();
    let bad_offsets = [&bad, [high.next_up(), -high.next_up(), 1e300].as_slice()].concat();
    let mut cases = Vec::new();
    let file = FileSpec::common(3).bytes();
    for (index, field) in SCALING.iter().enumerate() {
        let (good, bad) = if index < 3 {
            (&good_scales, &bad_scales)
        } else {
            (&good_offsets, &bad_offsets)
        };
        let values = good
            .iter()
            .map(|value| (value, 0))
            .chain(bad.iter().map(|value| (value, 10)));
        for (value, number) in values {
            let name = format!("{} {value:e}", field.name);
            cases.push(case(name, field.with(&file, value.to_bits()), number));
        }
    }
    cases
}

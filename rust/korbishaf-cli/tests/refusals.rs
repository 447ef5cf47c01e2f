//! Refusals of `korbishaf release`: each number, its words and what it is about.

mod common;

use common::{Ran, Scratch};
use compare::damage::{FORMAT, HEADER_SIZE, MAJOR, MINOR, POINT_COUNT, POINT_OFFSET};
use compare::damage::{RECORD_LENGTH, SCALING, VLR_COUNT};

/// The card's file has 817 bytes: a header of 231 bytes, three records, a gap, twelve points of 28 bytes from 464 on.
fn yard() -> Vec<u8> {
    Scratch::with_card("yard").read("in.las")
}

/// The release of a file and a sheet is refused with a number, and on standard error with these words; nothing is
/// written, and an older output stays.
fn refuses(file: &[u8], sheet: &[u8], number: u64, words: &str) {
    let scratch = Scratch::new();
    scratch.write("in.las", file);
    scratch.write("sheet.bin", sheet);
    let wanted = Ran::new(1, &format!("refused {number}\n"), &format!("{words}\n"));
    assert_eq!(scratch.says("release in.las sheet.bin out.las"), wanted);
    assert_eq!(scratch.names(), ["in.las", "sheet.bin"]);
    scratch.write("out.las", "older");
    assert_eq!(
        scratch.says("release --force in.las sheet.bin out.las"),
        wanted
    );
    assert_eq!(scratch.read("out.las"), b"older");
    assert_eq!(scratch.names(), ["in.las", "out.las", "sheet.bin"]);
}

fn refuses_file(file: &[u8], number: u64, words: &str) {
    refuses(
        file,
        b"",
        number,
        &format!("in.las: refused {number}: {words}"),
    );
}

fn refuses_sheet(sheet: &[u8], number: u64, words: &str) {
    refuses(
        &yard(),
        sheet,
        number,
        &format!("sheet.bin: refused {number}: {words}"),
    );
}

#[test]
fn files_1_to_5() {
    let yard = yard();
    refuses_file(&[], 1, "fewer than 227 bytes (length 0)");
    refuses_file(&yard[..226], 1, "fewer than 227 bytes (length 226)");
    let mut other = yard.clone();
    other[..4].copy_from_slice(b"LA\x1B\\");
    refuses_file(
        &other,
        2,
        "signature is not \"LASF\" (it begins with \"LA\\x1B\\\\\")",
    );
    refuses_file(&MINOR.with(&yard, 4), 3, "version is not 1.2 (version 1.4)");
    refuses_file(&MAJOR.with(&yard, 2), 3, "version is not 1.2 (version 2.2)");
    let words = "header size below 227 or above the file's length";
    refuses_file(
        &HEADER_SIZE.with(&yard, 226),
        4,
        &format!("{words} (header size 226, length 817)"),
    );
    refuses_file(
        &HEADER_SIZE.with(&yard, 818),
        4,
        &format!("{words} (header size 818, length 817)"),
    );
    refuses_file(&FORMAT.with(&yard, 6), 5, "point format above 3 (format 6)");
}

#[test]
fn files_6_to_10() {
    let yard = yard();
    let short = "record length below the format's size (record length 27, format 1 has 28)";
    refuses_file(&RECORD_LENGTH.with(&yard, 27), 6, short);
    let words = "point offset below the header size or above the file's length";
    let far = POINT_OFFSET.with(&yard, 4_294_967_295);
    refuses_file(&far, 7, &format!("{words} (offset 4294967295, length 817)"));
    let header_size = HEADER_SIZE.get(&yard);
    let near = POINT_OFFSET.with(&yard, header_size - 1);
    let about = format!("offset {}, header size {header_size}", header_size - 1);
    refuses_file(&near, 7, &format!("{words} ({about})"));
    let words = "a counted variable length record runs past the point offset";
    let first = POINT_OFFSET.with(&yard, header_size + 53);
    let end = header_size + 54;
    let about = format!(
        "record 1 of 3, from {header_size} to {end} or more, offset {}",
        header_size + 53
    );
    refuses_file(&first, 8, &format!("{words} ({about})"));
    // its payload of 14 bytes is cut
    let (end, offset) = (header_size + 68, header_size + 67);
    let about = format!("record 1 of 3, from {header_size} to {end}, offset {offset}");
    refuses_file(
        &POINT_OFFSET.with(&yard, offset),
        8,
        &format!("a counted variable length record runs past the point offset ({about})"),
    );
    let words = "the points run past the file's end";
    let about = "13 points of 28 bytes from 464 end at 828, length 817";
    refuses_file(
        &POINT_COUNT.with(&yard, 13),
        9,
        &format!("{words} ({about})"),
    );
    let words = "a scale is not from 2^-40 to 2^20, or an offset not from -2^40 to 2^40";
    for (field, value, about) in [
        (0, 0.0, "X scale 0.0"),
        (1, f64::NAN, "Y scale NaN"),
        (2, -0.01, "Z scale -0.01"),
        (3, f64::INFINITY, "X offset inf"),
        (4, 2e12, "Y offset 2000000000000.0"),
        (5, -2e12, "Z offset -2000000000000.0"),
    ] {
        let file = SCALING[field].with(&yard, value.to_bits());
        refuses_file(&file, 10, &format!("{words} ({about})"));
    }
}

/// The record that runs past the points need not be the first.
#[test]
fn a_later_record_is_named() {
    let (yard, words) = (
        yard(),
        "a counted variable length record runs past the point offset",
    );
    let count = VLR_COUNT.with(&yard, 1000);
    let ran = {
        let scratch = Scratch::new();
        scratch.write("in.las", &count);
        scratch.write("sheet.bin", "");
        scratch.says("release in.las sheet.bin out.las")
    };
    assert_eq!(ran.out, "refused 8\n");
    let start = format!("in.las: refused 8: {words} (record ");
    let about = ran.err.strip_prefix(&start).unwrap();
    let (index, rest) = about.split_once(" of 1000, from ").unwrap();
    assert!(
        (4..1000).contains(&index.parse::<u64>().unwrap()),
        "{about}"
    );
    assert!(rest.ends_with(" or more, offset 464)\n"), "{about}");
}

/// The words of 23.
const ABOVE: &str = "a line of the sheet has its lowest class above its highest, \
                     or a low value of its box above the high one";

#[test]
fn sheets() {
    let class = [b'K', b'S', 1, 2, 2];
    let mark = "a line of the sheet has a wrong mark";
    refuses_sheet(
        b"KS\x01\x02\x02KT\x01",
        20,
        &format!("{mark} (line 2 at byte 5: 4B 54)"),
    );
    let kind = "a line of the sheet is of an unknown kind";
    refuses_sheet(
        b"KS\x07\x02\x02",
        21,
        &format!("{kind} (line 1 at byte 0: kind 7)"),
    );
    let short = "a line of the sheet is cut short";
    refuses_sheet(
        b"KS",
        22,
        &format!("{short} (line 1 at byte 0: 2 bytes left)"),
    );
    refuses_sheet(
        b"KS\x01\x02\x02K",
        22,
        &format!("{short} (line 2 at byte 5: 1 byte left)"),
    );
    refuses_sheet(
        b"KS\x01\x02\x02KS\x02yard",
        22,
        &format!("{short} (line 2 at byte 5: 7 bytes left)"),
    );
    refuses_sheet(
        b"KS\x01\x03\x02",
        23,
        &format!("{ABOVE} (line 1 at byte 0: classes 3 to 2)"),
    );
    let more = "a 65th line of the sheet begins (it begins at byte 320)";
    refuses_sheet(&class.repeat(65), 24, more);
    refuses_sheet(&[&class.repeat(64)[..], b"K"].concat(), 24, more);
}

/// A line of a box at 0, but for one axis.
fn bounding_box(axis: usize, low: i32, high: i32) -> Vec<u8> {
    let mut values = [0; 6];
    (values[2 * axis], values[2 * axis + 1]) = (low, high);
    [b"KS\x03", &*values.map(i32::to_le_bytes).concat()].concat()
}

#[test]
fn boxes() {
    for (axis, name) in ["X", "Y", "Z"].into_iter().enumerate() {
        for (low, high) in [(-1, -2), (1, 0), (i32::MAX, i32::MIN)] {
            let sheet = [b"KS\x01\x02\x02", &*bounding_box(axis, low, high)].concat();
            let about = format!("line 2 at byte 5: {name} from {low} to {high}");
            refuses_sheet(&sheet, 23, &format!("{ABOVE} ({about})"));
        }
    }
    let good = bounding_box(0, 0, 0);
    let short = "a line of the sheet is cut short (line 2 at byte 27: 26 bytes left)";
    refuses_sheet(&[&good[..], &good[..26]].concat(), 22, short);
    let more = "a 65th line of the sheet begins (it begins at byte 1728)";
    refuses_sheet(&good.repeat(65), 24, more);
}

/// The file is looked at before a sheet's bytes, as the specification has it.
#[test]
fn the_file_comes_before_the_sheet() {
    let words = "in.las: refused 1: fewer than 227 bytes (length 4)";
    refuses(b"LASF", b"KS", 1, words);
}

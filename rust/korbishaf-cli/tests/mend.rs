//! `korbishaf mend`, as a process: what it mends, what it says, and what it refuses.

mod common;
#[path = "common/known.rs"]
mod known;

use common::{Ran, Scratch, json};
use compare::damage::{FORMAT, HEADER_SIZE, MINOR, POINT_COUNT, POINT_OFFSET};
use compare::damage::{RECORD_LENGTH, SCALING, VLR_COUNT};
use compare::rng::{Rng, seeds};
use compare::spec::{FileSpec, SheetSpec};
use known::{LYING, clean, lying};

#[test]
fn a_header_that_lies_is_mended() {
    let scratch = Scratch::new();
    scratch.write("in.las", lying());
    let words = format!("in.las: 5 fields mended, written to out.las\n{LYING}");
    assert_eq!(scratch.says("mend in.las out.las"), Ran::new(0, &words, ""));
    assert!(scratch.read("out.las") == clean().bytes());
    assert!(scratch.read("in.las") == lying());
    assert_eq!(scratch.names(), ["in.las", "out.las"]);
}

#[test]
fn a_header_that_is_right_stays() {
    let scratch = Scratch::new();
    scratch.write("in.las", clean().bytes());
    let words = "in.las: nothing had to be mended, written to out.las as it is\n";
    assert_eq!(scratch.says("mend in.las out.las"), Ran::new(0, words, ""));
    assert!(scratch.read("out.las") == clean().bytes());
}

/// A transfer that broke off: the points that came are released, and nothing of the one that came in part.
#[test]
fn a_file_that_was_cut_in_a_point_is_mended_and_released() {
    let scratch = Scratch::new();
    let cut = &clean().bytes()[..330];
    scratch.write("cut.las", cut);
    scratch.write("sheet.txt", known::SHEET);
    let release = "release cut.las sheet.txt out.las";
    assert_eq!(scratch.says(release).out, "refused 9\n");
    let words = "cut.las: 5 fields mended, written to mended.las
                                before  after
  number of points                   2      1
  number of points of return 2       1      0
  max X                           13.0   11.0
  min Y                            8.0   12.0
  max Z                           10.0    7.0
";
    let ran = scratch.says("mend cut.las mended.las");
    assert_eq!(ran, Ran::new(0, words, ""));
    assert!(scratch.read("mended.las")[227..] == cut[227..]);
    let ran = scratch.says("release mended.las sheet.txt out.las");
    assert_eq!(ran, Ran::new(0, "released 311 points 1 records 1\n", ""));
    assert!(!scratch.says("show mended.las").out.contains("differs"));
}

/// The count decides nothing about how long it takes or how much memory is needed.
#[test]
fn the_largest_number_of_points_in_a_small_file() {
    let scratch = Scratch::new();
    let file = POINT_COUNT.with(&clean().bytes(), u64::from(u32::MAX));
    scratch.write("in.las", file);
    let words = "in.las: 1 field mended, written to out.las
                        before  after
  number of points  4294967295      2
";
    assert_eq!(scratch.says("mend in.las out.las"), Ran::new(0, words, ""));
    assert!(scratch.read("out.las") == clean().bytes());
}

/// Zeros of both signs are told apart, since their bytes are.
#[test]
fn without_points_the_bounds_are_zero() {
    let scratch = Scratch::new();
    let mut spec = FileSpec::bare(0);
    let right = spec.bytes();
    spec.old_bounds = [-0.0, 0.0, f64::NAN, f64::INFINITY, 1e300, 0.0].map(f64::to_bits);
    scratch.write("in.las", spec.bytes());
    let words = "in.las: 4 fields mended, written to out.las
         before  after
  max X    -0.0    0.0
  max Y     NaN    0.0
  min Y     inf    0.0
  max Z   1e300    0.0
";
    assert_eq!(scratch.says("mend in.las out.las"), Ran::new(0, words, ""));
    assert!(scratch.read("out.las") == right);
}

#[test]
fn json_has_all_twelve_fields() {
    let scratch = Scratch::new();
    scratch.write("in.las", lying());
    let ran = scratch.says("mend --json in.las out.las");
    assert_eq!((ran.status, ran.err.as_str()), (Some(0), ""));
    let said = json::read(&ran.out).unwrap();
    assert_eq!(said.at("file").text(), "in.las");
    assert_eq!(said.at("output").text(), "out.las");
    assert_eq!(said.at("written"), &json::Value::Bool(true));
    assert_eq!(said.at("fields_changed").number(), 5);
    let wanted = [
        ("number of points", 107, 3.0, 2.0),
        ("number of points of return 1", 111, 1.0, 1.0),
        ("number of points of return 2", 115, 1.0, 1.0),
        ("number of points of return 3", 119, 7.0, 0.0),
        ("number of points of return 4", 123, 0.0, 0.0),
        ("number of points of return 5", 127, 4294967295.0, 0.0),
        ("max X", 179, f64::NAN, 13.0),
        ("min X", 187, 11.0, 11.0),
        ("max Y", 195, 12.0, 12.0),
        ("min Y", 203, f64::NEG_INFINITY, 8.0),
        ("max Z", 211, 10.0, 10.0),
        ("min Z", 219, 7.0, 7.0),
    ];
    let fields = said.at("fields").list();
    assert_eq!(fields.len(), wanted.len());
    for (field, (name, place, before, after)) in fields.iter().zip(wanted) {
        assert_eq!(field.at("name").text(), name);
        assert_eq!(field.at("place").number(), place, "{name}");
        let stated = field.at("before").double();
        assert!(stated == before || stated.is_nan() && before.is_nan());
        assert_eq!(field.at("after").double(), after, "{name}");
        let changed = json::Value::Bool(before != after);
        assert_eq!(field.at("changed"), &changed, "{name}");
    }
    assert!(scratch.read("out.las") == clean().bytes());
}

/// A refusal leaves no file, and what is there already stays, the scan itself too.
fn refuses(file: &[u8], number: u64, about: &str) {
    let scratch = Scratch::new();
    scratch.write("in.las", file);
    let words = korbishaf::refusal_words(number).unwrap();
    let words = format!("in.las: refused {number}: {words} ({about})\n");
    for options in ["", "--json", "--quiet"] {
        let ran = scratch.says(&format!("mend {options} in.las out.las"));
        assert_eq!(ran, Ran::new(1, "", &words));
    }
    assert_eq!(scratch.says("mend in.las -"), Ran::new(1, "", &words));
    assert_eq!(
        scratch.says("mend --force in.las in.las"),
        Ran::new(1, "", &words)
    );
    assert_eq!(scratch.names(), ["in.las"]);
    assert!(scratch.read("in.las") == file);
    scratch.write("out.las", "older");
    assert_eq!(
        scratch.says("mend --force in.las out.las"),
        Ran::new(1, "", &words)
    );
    assert_eq!(scratch.read("out.las"), b"older");
    assert_eq!(scratch.names(), ["in.las", "out.las"]);
}

/// The files state three points of two, so that a release would refuse those of 10 with 9.
#[test]
fn what_cannot_be_mended_is_refused() {
    let file = lying();
    refuses(&[], 1, "length 0");
    refuses(&file[..226], 1, "length 226");
    let other = [b"LASf", &file[4..]].concat();
    refuses(&other, 2, "it begins with \"LASf\"");
    refuses(&MINOR.with(&file, 4), 3, "version 1.4");
    refuses(
        &HEADER_SIZE.with(&file, 226),
        4,
        "header size 226, length 331",
    );
    refuses(&FORMAT.with(&file, 6), 5, "format 6");
    let about = "record length 19, format 0 has 20";
    refuses(&RECORD_LENGTH.with(&file, 19), 6, about);
    refuses(&POINT_OFFSET.with(&file, 332), 7, "offset 332, length 331");
    let about = "record 2 of 2, from 291 to 345 or more, offset 291";
    refuses(&VLR_COUNT.with(&file, 2), 8, about);
    let scale = SCALING[1].with(&file, f64::NAN.to_bits());
    refuses(&scale, 10, "Y scale NaN");
}

/// Random files, some of them cut: the twelve fields are those that las_plain puts there, no other byte changes, and
/// what passed before releases the same under any sheet.
#[test]
fn mending_does_not_change_what_goes_out() {
    let scratch = Scratch::new();
    let mut cut = 0;
    for seed in seeds() {
        let mut rng = Rng::new(seed);
        for _ in 0..100 {
            let spec = FileSpec::random(&mut rng);
            let mut file = spec.bytes();
            if rng.chance(30) {
                file.truncate(rng.from_to(spec.point_offset(), file.len()));
            }
            scratch.write("in.las", &file);
            assert_eq!(scratch.says("mend -f in.las out.las").status, Some(0));
            let mended = scratch.read("out.las");
            let kept = |bytes: &[u8]| [&bytes[..107], &bytes[131..179], &bytes[227..]].concat();
            assert!(kept(&mended) == kept(&file));
            let mut plain = file.clone();
            las_plain::mend(&mut plain).unwrap();
            assert!(mended == plain);
            let sheet = SheetSpec::random(&mut rng).bytes();
            match released(&file, &sheet) {
                Ok(before) => assert!(released(&mended, &sheet) == Ok(before)),
                Err(number) => {
                    assert_eq!(number, 9);
                    cut += 1;
                }
            }
        }
    }
    assert!((10..100).contains(&cut), "{cut}");
}

/// The release by las_plain, or the number of its refusal.
fn released(file: &[u8], sheet: &[u8]) -> Result<Vec<u8>, u64> {
    let mut out = vec![0; file.len()];
    let released = las_plain::release(file, sheet, &mut out).map_err(|refused| refused.number())?;
    out.truncate(released.length as usize);
    Ok(out)
}

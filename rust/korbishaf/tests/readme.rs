//! The examples of README.md and rust/README.md: what stands there is what runs here.

use korbishaf::{Line, Sheet};
use std::error::Error;
use std::fs;
use std::path::Path;

/// The example, with the file that it speaks of. Returns its sample.
fn example(file: Vec<u8>) -> Result<Vec<u8>, Box<dyn Error>> {
    let sheet = korbishaf::Sheet::from_text("class ground\nclass building\nrecord yard 7")?;
    let sample = korbishaf::release_to_vec(&file, &sheet)?;
    for point in korbishaf::points(&sample)? {
        println!("{:?}", point.point);
    }
    Ok(sample)
}

#[test]
fn the_example_gives_the_sample_of_its_card() {
    let card = Path::new(env!("CARGO_MANIFEST_DIR")).join("../../cards/yard");
    let file = fs::read(card.join("in.las")).unwrap();
    let expected = fs::read(card.join("expected.las")).unwrap();
    assert!(example(file).unwrap() == expected);
}

/// The one block of that kind in a paper.
fn block<'a>(paper: &'a str, kind: &str) -> &'a str {
    let blocks: Vec<&str> = paper.split(&format!("```{kind}\n")).skip(1).collect();
    assert_eq!(blocks.len(), 1);
    blocks[0].split_once("```").unwrap().0
}

#[test]
fn the_text_of_a_sheet() {
    let text = block(include_str!("../../README.md"), "text");
    let sheet = Sheet::from_text(text).unwrap();
    let lines = [
        Line::class(2),
        Line::classes(3, 5),
        Line::class(9),
        Line::record("LASF_Projection", 34735).unwrap(),
        Line::record(b"my \"own\" \xFC", 7).unwrap(),
        Line::bounding_box([-1500, 0, i32::MIN], [2000, 4000, i32::MAX]),
    ];
    assert!(sheet.lines().eq(lines));
}

#[test]
fn the_example_stands_in_the_readme() {
    let lines = block(include_str!("../../../README.md"), "rust");
    let indented: String = lines.lines().map(|line| format!("    {line}\n")).collect();
    assert!(include_str!("readme.rs").contains(&indented), "{indented}");
}

//! What `list` prints for a person.

use super::parts::{Cutting, Part, What};
use crate::facts::records;
use crate::shown::counted;
use std::io::{self, Write};

/// What stands above the places and the lengths.
const TITLES: [&str; 2] = ["place", "length"];

/// Writes the lines, and one that sums up, which counts every record and every point as a part.
pub fn write(
    out: &mut dyn Write,
    [name, sheet]: [&str; 2],
    cutting: &Cutting<'_>,
) -> io::Result<()> {
    writeln!(
        out,
        "{name} under {sheet}: the parts that go out; not to be handed on"
    )?;
    let [places, lengths] = widths(cutting);
    if cutting.parts().next().is_some() {
        let [place, length] = TITLES;
        writeln!(out, "  {place:>places$}  {length:>lengths$}")?;
    }
    for part in cutting.parts() {
        let (place, length) = (part.place, part.length);
        write!(out, "  {place:>places$}  {length:>lengths$}  ")?;
        write_what(out, &part.what)?;
    }
    let (points, records) = (cutting.points(), cutting.records());
    writeln!(
        out,
        "{}: {}, {}, {}",
        counted(points + records, "part"),
        counted(records, "record"),
        counted(points, "point"),
        counted(cutting.bytes(), "byte")
    )
}

/// Writes what a part is, and ends the line.
fn write_what(out: &mut dyn Write, what: &What<'_>) -> io::Result<()> {
    match what {
        What::Record(number, record) => writeln!(out, "record {number}, {}", records::name(record)),
        What::Points(first, 1) => writeln!(out, "point {first}"),
        What::Points(first, count) => writeln!(out, "points {first} to {}", first + count - 1),
    }
}

/// The widths of places and lengths: those of the largest, and of their titles.
fn widths(cutting: &Cutting<'_>) -> [usize; 2] {
    let largest = cutting.parts().fold([0, 0], |[place, length], part: Part| {
        [part.place.max(place), part.length.max(length)]
    });
    let digits = |number: u64| number.to_string().len();
    [0, 1].map(|column| digits(largest[column]).max(TITLES[column].len()))
}

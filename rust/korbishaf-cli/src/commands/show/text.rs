//! What `show` prints for a person.

use crate::facts::{Facts, header, text};
use crate::shown::counted;
use std::fmt::Display;
use std::io::{self, Write};

/// Writes the facts in sections.
pub fn write(out: &mut dyn Write, name: &str, facts: &Facts<'_>) -> io::Result<()> {
    let header = &facts.header;
    writeln!(
        out,
        "{name}: {}, {}, {}",
        counted(facts.length, "byte"),
        counted(header.point_count, "point"),
        counted(header.record_count, "record")
    )?;
    let mut section = |title: &str, lines: &dyn Display| write!(out, "\n{title}\n{lines}");
    section("Header", &text::header(&header::fields(header)))?;
    section("Beside header, records and points", &text::parts(facts))?;
    let records = text::records((1..).zip(facts.records()));
    section("Records", &records.or("none"))?;
    let classes = text::classes(facts.tally.classes(|_| true));
    section("Points by class", &classes.or("none"))?;
    let flags = facts.tally.flags(|_| true).into_iter();
    let flags = text::flags(flags.filter(|_| header.point_count > 0));
    section("Points by flag", &flags.or("none"))?;
    section("Points by return number", &text::returns(facts))?;
    section("Bounds", &text::bounds(&facts.bounds()))?;
    section("GeoKeys", &text::geokeys(facts))
}

//! Times the proved library and `las_plain` on the same files, sheet and output, and an earlier build of the library
//! where one is given.
//!
//! Run it with `cargo run --release -p bench`, or with `-- --before SHARED_OBJECT`. Each figure is a median; the sides
//! take turns, and before each turn the output and the list are cleared, or a file that is mended gets its first header
//! again. With `-- --tool PROGRAM FOLDER` it times the command `korbishaf` instead, on files in that folder, and with
//! `-- --records A.so B.so [A.so B.so ..]` pairs of builds on records.

mod boxes;
mod builds;
mod calls;
mod cases;
mod class_tests;
mod each;
mod geokey_lookups;
mod growth;
mod library;
mod lists;
mod mendings;
mod records;
mod releases;
mod report;
mod sample;
mod table;
mod timing;
mod tool;

use std::ffi::OsString;
use std::path::Path;
use std::process::ExitCode;

use builds::{Builds, Pair};

fn main() -> ExitCode {
    let arguments: Vec<OsString> = std::env::args_os().skip(1).collect();
    match run(&arguments) {
        Ok(()) => ExitCode::SUCCESS,
        Err(why) => {
            eprintln!("{why}");
            ExitCode::from(2)
        }
    }
}

/// Does what the arguments ask for, or says why not.
fn run(arguments: &[OsString]) -> Result<(), String> {
    match arguments {
        [option, program, folder] if option == "--tool" => {
            tool::compare(Path::new(program), Path::new(folder));
        }
        [option, paths @ ..] if option == "--records" => {
            records::pairs::compare(&Pair::asked_for(paths)?);
        }
        _ => compare(&Builds::asked_for(arguments)?),
    }
    Ok(())
}

fn compare(builds: &Builds) {
    let before = builds.before.is_some();
    let table = report::start(before);
    let mut rows = Vec::new();
    for sample in cases::samples() {
        let timed = releases::rows(builds, sample);
        timed.iter().for_each(|row| table.row(&report::cells(row)));
        rows.extend(timed);
    }
    println!();
    growth::print(&rows, before);
    println!();
    mendings::compare(builds);
    println!();
    records::compare(builds);
    println!();
    calls::compare(builds);
    println!();
    class_tests::compare(builds);
    println!();
    geokey_lookups::compare(builds);
    println!();
    lists::compare(builds);
    println!();
    boxes::compare(builds);
}

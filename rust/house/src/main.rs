//! The tools of the house. Run from the repository's root; tools/ has a short command for each.

use house::{Result, audit, edits, pack};
use std::path::Path;
use std::process::ExitCode;

const USAGE: &str = "\
usage, from the repository's root:
    house audit [--functions]     says what the crates promise, and what a reader would object to
    house pack [CRATE..]          packs the wrong programs into as few must-fail edits as will do
    house edits                   lists the wrong programs: crate, edit, name, what is wrong, where it differs
    house apply NAME WHAT ROOT    makes one of them in the copy of the repository at ROOT";

/// Runs a command and says whether it holds.
fn run(arguments: &[&str]) -> Result<bool> {
    let root = Path::new(".");
    let mut holds = true;
    let lines = match arguments {
        ["audit"] | ["audit", "--functions"] => {
            let report = audit::audit(root, arguments.len() == 2)?;
            holds = report.failed == 0;
            report.lines
        }
        ["pack", crates @ ..] => pack::pack(root, crates)?,
        ["edits"] => edits::listed(root)?,
        ["apply", name, what, copy] => {
            edits::apply(Path::new(copy), name, what)?;
            Vec::new()
        }
        _ => return Err(USAGE.to_string()),
    };
    for line in lines {
        println!("{line}");
    }
    Ok(holds)
}

fn main() -> ExitCode {
    let arguments: Vec<String> = std::env::args().skip(1).collect();
    let arguments: Vec<&str> = arguments.iter().map(String::as_str).collect();
    match run(&arguments) {
        Ok(true) => ExitCode::SUCCESS,
        Ok(false) => ExitCode::FAILURE,
        Err(error) => {
            eprintln!("{error}");
            ExitCode::FAILURE
        }
    }
}

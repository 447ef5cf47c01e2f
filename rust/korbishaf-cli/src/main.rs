//! The command `korbishaf`.

use std::process::ExitCode;

fn main() -> ExitCode {
    ExitCode::from(korbishaf_cli::run(std::env::args_os().skip(1)))
}

//! The command `korbishaf release` on a file of 500 MB, beside `cat IN > OUT` and the library's own time.

use std::fs::{self, File};
use std::path::{Path, PathBuf};
use std::process::{Command, Stdio};
use std::time::Duration;

use crate::library::Library;
use crate::sample::{SHEET, Sample, Shape};
use crate::table::Table;
use crate::timing::{Side, medians, milliseconds, time};

/// 500 MB, half of them kept.
const SAMPLE: Sample = Sample {
    points: 17_857_142,
    shape: Shape::Random,
    format: 1,
    extra: 0,
};

const ROUNDS: usize = 11;

/// What the command may take of the time of `cat`, beside the library's own time.
const ALLOWED: f64 = 1.3;

/// Times the program at a path on files in a folder, where it leaves nothing.
pub fn compare(program: &Path, folder: &Path) {
    let files = Files::new(folder);
    let file = SAMPLE.file();
    fs::write(&files.input, &file).expect("the folder takes the file");
    fs::write(&files.sheet, SHEET).expect("the folder takes the sheet");
    let library = Library::linked();
    let needed = library.release(&file, &SHEET, &mut []).length;
    let mut room = vec![0; needed as usize];
    let sides: [Side; 4] = [
        Box::new(|_| second(|| files.copy(false))),
        Box::new(|_| second(|| files.copy(true))),
        Box::new(|_| second(|| files.release(program))),
        Box::new(|room| {
            time(|| {
                library.release(&file, &SHEET, &mut []);
                library.release(&file, &SHEET, room);
            })
        }),
    ];
    let medians = medians(ROUNDS, &sides, &mut room);
    files.release(program);
    assert_eq!(fs::read(&files.output).expect("it was released"), room);
    print(&medians);
}

/// The second of two turns: memory that a virtual machine has not used for a while is slow at first, for each side.
fn second(turn: impl Fn() -> Duration) -> Duration {
    turn();
    turn()
}

fn print(medians: &[Duration]) {
    println!("korbishaf release of a file of 500 MB, half kept at random: medians in ms");
    let table = Table::start(&[
        "     cat",
        "  cat, flushed",
        "  library",
        "  korbishaf",
        "  1.3 cat + library",
        "  korbishaf / that",
    ]);
    let [cat, flushed, tool, library] = [0, 1, 2, 3].map(|side| milliseconds(medians[side]));
    let allowed = ALLOWED * cat + library;
    let cells = [cat, flushed, library, tool, allowed].map(|time| format!("{time:.0}"));
    let ratio = format!("{:.2}", tool / allowed);
    table.row(&[&cells[..], &[ratio]].concat());
}

/// The files of the comparison, in a folder of their own, which is removed in the end.
struct Files {
    folder: PathBuf,
    input: PathBuf,
    sheet: PathBuf,
    output: PathBuf,
}

impl Files {
    fn new(folder: &Path) -> Self {
        let folder = folder.join(format!("korbishaf-bench-{}", std::process::id()));
        fs::create_dir(&folder).expect("a folder can be made there");
        Files {
            input: folder.join("in.las"),
            sheet: folder.join("sheet.bin"),
            output: folder.join("out.las"),
            folder,
        }
    }

    /// The time of a copy by `cat`, flushed or not.
    fn copy(&self, flushed: bool) -> Duration {
        self.clear();
        time(|| {
            let out = File::create(&self.output).expect("the output can be made");
            run(Command::new("cat").arg(&self.input).stdout(out));
            if flushed {
                run(Command::new("sync").arg(&self.output));
            }
        })
    }

    /// The time of a release by the command.
    fn release(&self, program: &Path) -> Duration {
        self.clear();
        let words = [&self.input, &self.sheet, &self.output];
        time(|| {
            run(Command::new(program)
                .arg("release")
                .args(words)
                .stdout(Stdio::null()))
        })
    }

    /// No output, and nothing left to flush that another side has written.
    fn clear(&self) {
        let _ = fs::remove_file(&self.output);
        run(&mut Command::new("sync"));
    }
}

impl Drop for Files {
    fn drop(&mut self) {
        let _ = fs::remove_dir_all(&self.folder);
    }
}

fn run(command: &mut Command) {
    let status = command.status();
    assert!(
        status.is_ok_and(|status| status.success()),
        "{command:?} failed"
    );
}

//! The commands in the README and in the manual page, with the output that stands there.

mod common;

use common::{Ran, Scratch};
use std::fs;
use std::os::unix::fs::symlink;
use std::path::{Path, PathBuf};
use std::process::Command;

fn root() -> PathBuf {
    Path::new(env!("CARGO_MANIFEST_DIR")).join("../..")
}

/// The commands of a text, each a line behind `$ `, and what stands below each up to the end that is given.
fn commands(text: &str, end: &str) -> Vec<(String, String)> {
    let block = text.split(end).next().unwrap();
    let parts = block.split("$ ").skip(1);
    let parts = parts.map(|part| part.split_once('\n').unwrap());
    parts
        .map(|(command, output)| (command.to_string(), output.to_string()))
        .collect()
}

/// Runs a line in a shell that finds the built command, with standard error on standard output.
fn shell(scratch: &Scratch, line: &str) -> Ran {
    let folder = Path::new(env!("CARGO_BIN_EXE_korbishaf")).parent().unwrap();
    let path = format!("{}:{}", folder.display(), std::env::var("PATH").unwrap());
    let mut shell = Command::new("sh");
    shell
        .args(["-c", &format!("{line} 2>&1")])
        .env("PATH", path);
    Ran::of(shell.current_dir(scratch.path("")).output().unwrap())
}

#[test]
fn the_readme_shows_what_is_printed() {
    let readme = fs::read_to_string(root().join("README.md")).unwrap();
    let scratch = Scratch::new();
    symlink(root().join("cards"), scratch.path("cards")).unwrap();
    let blocks = readme.split("```console\n").skip(1);
    let shown: Vec<_> = blocks.flat_map(|block| commands(block, "```")).collect();
    assert_eq!(shown.len(), 13);
    // tests/install.sh tries the first
    assert!(shown[0].0.starts_with("./install "));
    for (command, output) in &shown[1..] {
        let command = command.replace("~/.local/bin/", "");
        let status = if output.contains("refused") { 1 } else { 0 };
        assert_eq!(
            shell(&scratch, &command),
            Ran::new(status, output, ""),
            "{command}"
        );
    }
    let expected = fs::read(root().join("cards/yard/expected.las")).unwrap();
    assert_eq!(scratch.read("sample.las"), expected);
}

/// The page shows the output of some commands only, and its scans are those of the cards.
#[test]
fn the_manual_page_has_commands_that_work() {
    let page = fs::read_to_string(root().join("rust/korbishaf-cli/korbishaf.1")).unwrap();
    let page = page
        .replace("\\(aq", "'")
        .replace("\\e", "\\")
        .replace("\\-", "-");
    let examples = page
        .split(".SH EXAMPLES")
        .nth(1)
        .unwrap()
        .split(".SH")
        .next()
        .unwrap();
    let blocks = examples.split(".nf\n").skip(1);
    let shown: Vec<_> = blocks.flat_map(|block| commands(block, ".fi")).collect();
    assert_eq!(shown.len(), 12);
    let scratch = Scratch::new();
    for (card, scan) in [("yard", "scan.las"), ("survey", "survey.las")] {
        let from = root().join("cards").join(card).join("in.las");
        fs::copy(from, scratch.path(scan)).unwrap();
    }
    for (command, output) in shown {
        let ran = shell(&scratch, &command);
        assert_eq!(ran.status, Some(0), "{command}: {}", ran.out);
        assert!(
            ran.out == output || output.is_empty(),
            "{command}: {}",
            ran.out
        );
    }
}

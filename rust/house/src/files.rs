//! Reads the repository's files. A file is named by its path from the root, as it is printed.

use std::fs;
use std::path::{Path, PathBuf};

/// What a tool gives, or why it cannot.
pub type Result<T> = std::result::Result<T, String>;

/// The text of a file.
pub fn read(root: &Path, file: &Path) -> Result<String> {
    fs::read_to_string(root.join(file)).map_err(|error| said(file, error))
}

/// The lines of a file.
pub fn lines(root: &Path, file: &Path) -> Result<Vec<String>> {
    Ok(read(root, file)?.lines().map(str::to_string).collect())
}

/// Replaces a file's text.
pub fn write(root: &Path, file: &Path, text: &str) -> Result<()> {
    fs::write(root.join(file), text).map_err(|error| said(file, error))
}

/// Removes a file.
pub fn remove(root: &Path, file: &Path) -> Result<()> {
    fs::remove_file(root.join(file)).map_err(|error| said(file, error))
}

/// Whether rt makes a folder: crates/NAME/out, and none that is deeper, as the proofs of a function `out` may be.
fn is_made(path: &Path) -> bool {
    let steps: Vec<_> = path.iter().collect();
    matches!(steps[..], [crates, _, out] if crates == "crates" && out == "out")
}

/// All files below a folder in order, without what rt makes and without folders of the names left out. A folder that is
/// not there has none.
pub fn below(root: &Path, folder: &Path, left_out: &[&str]) -> Result<Vec<PathBuf>> {
    let (mut found, mut todo) = (Vec::new(), vec![folder.to_path_buf()]);
    while let Some(folder) = todo.pop() {
        for path in entries(root, &folder)? {
            let full = root.join(&path);
            if is_made(&path) || left_out.iter().any(|name| path.ends_with(name)) {
                continue;
            } else if full.is_file() {
                found.push(path);
            } else if !full.is_symlink() {
                todo.push(path);
            }
        }
    }
    found.sort();
    Ok(found)
}

/// The files below a folder that end in a suffix, in order.
pub fn with_suffix(root: &Path, folder: &Path, wanted: &str) -> Result<Vec<PathBuf>> {
    let mut found = below(root, folder, &[])?;
    found.retain(|path| suffix(path) == wanted);
    Ok(found)
}

/// The names of the crates: the folders of `crates/`, in order. Without that folder nothing is the repository.
pub fn crate_names(root: &Path) -> Result<Vec<String>> {
    if !root.join("crates").is_dir() {
        return Err(format!("{}: has no folder crates/", root.display()));
    }
    let mut folders = entries(root, Path::new("crates"))?;
    folders.retain(|path| root.join(path).is_dir());
    folders.sort();
    Ok(folders.iter().map(|path| name(path)).collect())
}

/// The folder of a crate.
pub fn crate_folder(name: &str) -> PathBuf {
    Path::new("crates").join(name)
}

/// The last step of a path.
pub fn name(path: &Path) -> String {
    path.file_name()
        .unwrap_or_default()
        .to_string_lossy()
        .into_owned()
}

/// What stands behind the last dot of a file's name, or nothing.
pub fn suffix(path: &Path) -> &str {
    path.extension()
        .and_then(|suffix| suffix.to_str())
        .unwrap_or_default()
}

fn entries(root: &Path, folder: &Path) -> Result<Vec<PathBuf>> {
    let full = root.join(folder);
    if !full.is_dir() {
        return Ok(Vec::new());
    }
    let mut found = Vec::new();
    for entry in fs::read_dir(full).map_err(|error| said(folder, error))? {
        found.push(folder.join(entry.map_err(|error| said(folder, error))?.file_name()));
    }
    Ok(found)
}

fn said(path: &Path, error: std::io::Error) -> String {
    format!("{}: {error}", path.display())
}

//! Files that are whole or not there: written under a name of their own, flushed, and then renamed.

use crate::failure::Failure;
use crate::input::Opened;
use crate::progress::Progress;
use crate::room::STEP;
use crate::{console, shown, signals};
use std::ffi::{CString, OsStr, c_char, c_int, c_uint};
use std::fs::{self, File, Metadata, Permissions};
use std::io::{Error, ErrorKind, Write};
use std::os::fd::AsRawFd;
use std::os::unix::ffi::OsStrExt;
use std::os::unix::fs::{MetadataExt, PermissionsExt};
use std::path::{Path, PathBuf};
use std::process;

unsafe extern "C" {
    fn renameat2(
        from_folder: c_int,
        from: *const c_char,
        to_folder: c_int,
        to: *const c_char,
        flags: c_uint,
    ) -> c_int;
    fn sync_file_range(file: c_int, from: i64, length: i64, flags: c_uint) -> c_int;
}

const AT_FDCWD: c_int = -100;
const RENAME_NOREPLACE: c_uint = 1;
const SYNC_FILE_RANGE_WRITE: c_uint = 2;
const EINVAL: i32 = 22;
const ENOSYS: i32 = 38;

/// How many bytes are handed to the disk at a time.
const FLUSHED: usize = 8 * STEP;

/// Where a file is to be written, looked at before anything is read.
#[derive(Debug)]
pub struct Target {
    /// Its name, as it may be shown.
    name: String,
    /// Where it will stand: behind links, if its name is one.
    path: PathBuf,
    /// What stands there now.
    old: Option<Metadata>,
    /// Whether that is replaced.
    force: bool,
    /// Whether that is read too, so that what others write to it in the meantime must not be lost.
    is_read: bool,
}

impl Target {
    /// Looks at the place for a file. What is there can be replaced only if it is a plain file.
    pub fn new(path: &OsStr, force: bool) -> Result<Self, Failure> {
        let name = shown::name(path);
        if path.is_empty() || path.as_bytes().ends_with(b"/") {
            return Err(Failure::Usage(format!(
                "'{name}': no file can have that name"
            )));
        }
        let mut path = PathBuf::from(path);
        let old = match fs::metadata(&path) {
            Ok(old) => Some(old),
            Err(error) if error.kind() != ErrorKind::NotFound => {
                return Err(Failure::io(&name, &error));
            }
            Err(_) if path.is_symlink() => {
                return Err(Failure::Usage(format!(
                    "{name}: is a link that leads nowhere"
                )));
            }
            Err(_) => None,
        };
        if let Some(old) = &old {
            can_be_replaced(&name, old)?;
        }
        if path.is_symlink() {
            // a link stays, and the file that it leads to is replaced
            path = fs::canonicalize(&path).map_err(|error| Failure::io(&name, &error))?;
        }
        let target = Target {
            name,
            path,
            old,
            force,
            is_read: false,
        };
        target.check_folder()?;
        Ok(target)
    }

    /// Refuses where there is no folder for it.
    fn check_folder(&self) -> Result<(), Failure> {
        let name = format!("{}: its folder", self.name);
        match fs::metadata(self.folder()) {
            Ok(folder) if folder.is_dir() => Ok(()),
            Ok(_) => Err(Failure::Io(format!("{name} is no folder"))),
            Err(error) => Err(Failure::io(&name, &error)),
        }
    }

    /// Refuses where what stands there now is one of these files, or may not be replaced.
    pub fn check(&self, spared: &[&Opened]) -> Result<(), Failure> {
        if let Some(same) = spared.iter().find(|opened| self.is(opened)) {
            return Err(Failure::Usage(format!(
                "{} and {} are one file",
                same.name, self.name
            )));
        }
        match self.old {
            Some(_) if !self.force => Err(exists(&self.name)),
            _ => Ok(()),
        }
    }

    /// Says whether what stands there now is the file that is read. It is then replaced only if it stays as it is now.
    pub fn is_in_place(&mut self, read: &Opened) -> bool {
        self.is_read = self.is(read);
        self.is_read
    }

    /// Whether what stands there now is that file, by whatever name.
    fn is(&self, opened: &Opened) -> bool {
        let identity = self.old.as_ref().map(|old| (old.dev(), old.ino()));
        identity == Some(opened.identity)
    }

    /// Refuses where what stood there is read too and has changed since: it may still be on its way here.
    fn spare_changes(&self) -> Result<(), Failure> {
        let now = fs::metadata(&self.path).ok();
        if self.is_read && now.as_ref().map(state) != self.old.as_ref().map(state) {
            let words = format!("{}: was changed in the meantime, and stays", self.name);
            return Err(Failure::Io(words));
        }
        Ok(())
    }

    /// Writes the file: it is there whole when this succeeds, and as it was when it fails.
    pub fn write(&self, bytes: &[u8], progress: &Progress) -> Result<(), Failure> {
        let failed = |error: Error| Failure::io(&self.name, &error);
        let (part, mut file) = Part::create(self.folder()).map_err(failed)?;
        if let Some(old) = &self.old {
            let mode = old.permissions().mode() & 0o777;
            file.set_permissions(Permissions::from_mode(mode))
                .map_err(failed)?;
        }
        progress.begin("writing", Some(bytes.len() as u64));
        for (index, flushed) in bytes.chunks(FLUSHED).enumerate() {
            for step in flushed.chunks(STEP) {
                file.write_all(step).map_err(failed)?;
                progress.add(step.len() as u64);
            }
            begin_to_flush(&file, index * FLUSHED, flushed.len());
        }
        file.sync_all().map_err(failed)?;
        self.spare_changes()?;
        part.rename_to(&self.path, self.force)
            .map_err(|error| match error.kind() {
                ErrorKind::AlreadyExists => exists(&self.name),
                _ => failed(error),
            })?;
        flush_folder(self.folder())
            .map_err(|error| Failure::io(&format!("{}: its folder", self.name), &error))
    }

    fn folder(&self) -> &Path {
        match self.path.parent() {
            Some(folder) if !folder.as_os_str().is_empty() => folder,
            _ => Path::new("."),
        }
    }
}

/// Refuses what is no plain file, or is where standard output goes to, which has a line of its own to print there.
fn can_be_replaced(name: &str, old: &Metadata) -> Result<(), Failure> {
    let words = if old.is_dir() {
        "is a folder"
    } else if !old.is_file() {
        "is no plain file; '-' writes to standard output"
    } else if console::output_is((old.dev(), old.ino())) {
        "is standard output; '-' writes there"
    } else {
        return Ok(());
    };
    Err(Failure::Usage(format!("{name}: {words}")))
}

/// What tells whether a file was written to: which one it is, its length, and when it was changed.
fn state(file: &Metadata) -> (u64, u64, u64, i64, i64) {
    let (second, nanosecond) = (file.mtime(), file.mtime_nsec());
    (file.dev(), file.ino(), file.len(), second, nanosecond)
}

fn exists(name: &str) -> Failure {
    Failure::Usage(format!("{name}: exists already; --force replaces it"))
}

/// Has the system begin to flush a part of a file, so that there is less to wait for in the end. That it fails matters
/// to nobody: the flush in the end is the one that counts.
fn begin_to_flush(file: &File, from: usize, length: usize) {
    // SAFETY: this touches no memory.
    unsafe {
        sync_file_range(
            file.as_raw_fd(),
            from as i64,
            length as i64,
            SYNC_FILE_RANGE_WRITE,
        )
    };
}

/// The folder's own entry for the file has to last as well.
fn flush_folder(folder: &Path) -> Result<(), Error> {
    match File::open(folder)?.sync_all() {
        // there are file systems that flush no folder
        Err(error) if error.raw_os_error() == Some(EINVAL) => Ok(()),
        done => done,
    }
}

/// A file under a name of its own, which is removed unless it is renamed.
struct Part {
    path: PathBuf,
}

impl Part {
    /// A new file in the folder.
    fn create(folder: &Path) -> Result<(Self, File), Error> {
        for number in 0.. {
            let path = folder.join(format!(".korbishaf-{}-{number}.part", process::id()));
            let text = c_string(&path)?;
            let created = signals::undisturbed(|| {
                let created = File::options().write(true).create_new(true).open(&path);
                if created.is_ok() {
                    signals::remove_on_end(Some(text));
                }
                created
            });
            match created {
                Ok(file) => return Ok((Part { path }, file)),
                Err(error) if error.kind() == ErrorKind::AlreadyExists => {}
                Err(error) => return Err(error),
            }
        }
        unreachable!("there is a number for every name")
    }

    /// Gives the file its name. Where nothing may be replaced, the system sees to it, so that a file that came there in
    /// the meantime stays; only a file system that can't is asked first.
    fn rename_to(self, path: &Path, replace: bool) -> Result<(), Error> {
        if replace {
            return fs::rename(&self.path, path);
        }
        let (from, to) = (c_string(&self.path)?, c_string(path)?);
        // SAFETY: both are strings that end with a zero byte.
        let status = unsafe {
            renameat2(
                AT_FDCWD,
                from.as_ptr(),
                AT_FDCWD,
                to.as_ptr(),
                RENAME_NOREPLACE,
            )
        };
        if status == 0 {
            return Ok(());
        }
        let error = Error::last_os_error();
        if !matches!(error.raw_os_error(), Some(EINVAL | ENOSYS)) {
            return Err(error);
        }
        match fs::symlink_metadata(path) {
            Ok(_) => Err(ErrorKind::AlreadyExists.into()),
            Err(_) => fs::rename(&self.path, path),
        }
    }
}

impl Drop for Part {
    fn drop(&mut self) {
        // where it was renamed there is nothing of that name any more
        let _ = fs::remove_file(&self.path);
        signals::remove_on_end(None);
    }
}

fn c_string(path: &Path) -> Result<CString, Error> {
    CString::new(path.as_os_str().as_bytes()).map_err(|_| ErrorKind::InvalidInput.into())
}

#[cfg(test)]
mod tests {
    use super::*;
    use std::os::unix::fs::symlink;

    /// A folder of its own.
    fn folder(name: &str) -> PathBuf {
        let folder =
            std::env::temp_dir().join(format!("korbishaf-whole-file-{}-{name}", process::id()));
        fs::create_dir(&folder).unwrap();
        folder
    }

    fn names(folder: &Path) -> Vec<String> {
        let entries = fs::read_dir(folder).unwrap();
        entries
            .map(|entry| entry.unwrap().file_name().into_string().unwrap())
            .collect()
    }

    #[test]
    fn what_came_there_in_the_meantime_stays() {
        let folder = folder("meantime");
        let path = folder.join("out");
        let write = || Target::new(path.as_os_str(), false).unwrap();
        for come in [
            |path: &Path| fs::write(path, "theirs"),
            |path: &Path| symlink("theirs", path),
        ] {
            let target = write();
            come(&path).unwrap();
            let exists = target.write(b"ours", &Progress::none()).unwrap_err();
            assert!(
                exists
                    .words()
                    .ends_with("out: exists already; --force replaces it")
            );
            assert_eq!(names(&folder), ["out"]);
            assert_ne!(fs::read(&path).unwrap_or_default(), b"ours");
            fs::remove_file(&path).unwrap();
        }
        write().write(b"ours", &Progress::none()).unwrap();
        assert_eq!(fs::read(&path).unwrap(), b"ours");
        fs::remove_dir_all(folder).unwrap();
    }

    #[test]
    fn a_part_of_the_same_name_is_left_alone() {
        let folder = folder("part");
        let theirs = folder.join(format!(".korbishaf-{}-0.part", process::id()));
        fs::write(&theirs, "theirs").unwrap();
        let target = Target::new(folder.join("out").as_os_str(), false).unwrap();
        target.write(b"ours", &Progress::none()).unwrap();
        assert_eq!(fs::read(&theirs).unwrap(), b"theirs");
        assert_eq!(names(&folder).len(), 2);
        fs::remove_dir_all(folder).unwrap();
    }
}

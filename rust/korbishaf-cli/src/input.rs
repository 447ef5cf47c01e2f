//! Files that are read whole.

use crate::failure::Failure;
use crate::progress::Progress;
use crate::room::{self, LARGE, STEP};
use crate::{console, shown, signals};
use std::ffi::OsStr;
use std::fs::File;
use std::io::{Error, ErrorKind, Read, Seek, SeekFrom};
use std::os::fd::AsFd;
use std::os::unix::fs::{FileExt, MetadataExt};
use std::thread;

/// How many bytes a pipe holds.
const PIPE: usize = 1 << 16;

/// A file that is open to be read.
#[derive(Debug)]
pub struct Opened {
    /// Its name, as it may be shown.
    pub name: String,
    /// Which file it is, by whatever name: its device and its number there.
    pub identity: (u64, u64),
    file: File,
    /// Its length, where that is known before it is read.
    length: Option<u64>,
}

/// Whether a name stands for standard input or output.
pub fn is_standard(path: &OsStr) -> bool {
    path == "-"
}

/// The name of a file to read, as it may be shown.
pub fn name(path: &OsStr) -> String {
    if is_standard(path) {
        "standard input".into()
    } else {
        shown::name(path)
    }
}

impl Opened {
    /// Opens a file, or standard input for `-`.
    pub fn new(path: &OsStr) -> Result<Self, Failure> {
        let name = name(path);
        let failed = |error: Error| Failure::io(&name, &error);
        let file = open(path).map_err(failed)?;
        let known = file.metadata().map_err(failed)?;
        let length = known.is_file().then_some(known.len());
        Ok(Opened {
            identity: (known.dev(), known.ino()),
            name,
            file,
            length,
        })
    }

    /// Reads the file whole.
    pub fn read(mut self, progress: &Progress) -> Result<Vec<u8>, Failure> {
        progress.begin("reading", self.length);
        let known = usize::try_from(self.length.unwrap_or(0)).map_err(|_| self.too_large())?;
        let mut bytes = room::zeros(known).ok_or_else(|| self.too_large())?;
        let failed = |error: Error| Failure::io(&self.name, &error);
        let start = if known == 0 {
            0
        } else {
            self.file.stream_position().map_err(failed)?
        };
        let part = Part {
            file: &self.file,
            start,
            progress,
        };
        let done = part.fill_by_two(&mut bytes).map_err(failed)?;
        bytes.truncate(done);
        if known > 0 {
            self.file
                .seek(SeekFrom::Start(start + done as u64))
                .map_err(failed)?;
        }
        self.read_rest(&mut bytes, progress)?;
        Ok(bytes)
    }

    /// Reads what there is beyond the length that was known, as it comes.
    fn read_rest(&mut self, bytes: &mut Vec<u8>, progress: &Progress) -> Result<(), Failure> {
        let mut next = [0; PIPE];
        loop {
            let count = match self.file.read(&mut next) {
                Ok(0) => return Ok(()),
                Ok(count) => count,
                Err(error) if error.kind() == ErrorKind::Interrupted => continue,
                Err(error) => return Err(Failure::io(&self.name, &error)),
            };
            if bytes.capacity() - bytes.len() < count {
                bytes
                    .try_reserve_exact(STEP)
                    .map_err(|_| self.too_large())?;
            }
            bytes.extend(&next[..count]);
            progress.add(count as u64);
        }
    }

    fn too_large(&self) -> Failure {
        Failure::Io(format!("{}: it does not fit into memory", self.name))
    }
}

/// A part of a file: what stands there from a place on.
#[derive(Clone, Copy)]
struct Part<'a> {
    file: &'a File,
    start: u64,
    progress: &'a Progress,
}

impl Part<'_> {
    /// Fills the room from the front of the part, as far as the file goes, and says how many bytes that are.
    fn fill(self, room: &mut [u8]) -> Result<usize, Error> {
        let mut done = 0;
        while done < room.len() {
            let end = room.len().min(done + STEP);
            match self
                .file
                .read_at(&mut room[done..end], self.start + done as u64)
            {
                Ok(0) => break,
                Ok(count) => {
                    done += count;
                    self.progress.add(count as u64);
                }
                Err(error) if error.kind() == ErrorKind::Interrupted => {}
                Err(error) => return Err(error),
            }
        }
        Ok(done)
    }

    /// The same, but two threads share a large room: most of the time goes into memory that is used for the first time.
    fn fill_by_two(self, room: &mut [u8]) -> Result<usize, Error> {
        if room.len() >= LARGE
            && let Some(done) = self.try_two(room)
        {
            return done;
        }
        self.fill(room)
    }

    /// Fills the room by two threads; none where no second one can be started.
    fn try_two(self, room: &mut [u8]) -> Option<Result<usize, Error>> {
        let (front, back) = room.split_at_mut(room.len() / 2);
        let second = Part {
            start: self.start + front.len() as u64,
            ..self
        };
        thread::scope(|scope| {
            let read = move || second.fill(back);
            let start = || thread::Builder::new().spawn_scoped(scope, read);
            let other = signals::undisturbed(start).ok()?;
            let done = self.fill(front);
            let more = other
                .join()
                .unwrap_or_else(|_| Err(ErrorKind::Other.into()));
            Some(done.and_then(|done| {
                // a file that has become shorter ends where the first gap is
                Ok(if done < front.len() {
                    done
                } else {
                    done + more?
                })
            }))
        })
    }
}

fn open(path: &OsStr) -> Result<File, Error> {
    if is_standard(path) {
        console::has_input()?;
        Ok(File::from(std::io::stdin().as_fd().try_clone_to_owned()?))
    } else {
        File::open(path)
    }
}

#[cfg(test)]
mod tests {
    use super::*;
    use std::fs;
    use std::process;

    /// A file of so many bytes, opened as if it had another length.
    fn opened(name: &str, bytes: &[u8], length: Option<u64>) -> Opened {
        let path = std::env::temp_dir().join(format!("korbishaf-input-{}-{name}", process::id()));
        fs::write(&path, bytes).unwrap();
        let opened = Opened::new(path.as_os_str()).unwrap();
        fs::remove_file(path).unwrap();
        assert_eq!(opened.length, Some(bytes.len() as u64));
        Opened { length, ..opened }
    }

    /// Small and large files that were longer, as long or shorter when they were opened, or of unknown length.
    #[test]
    fn a_file_is_read_whole_however_its_length_has_changed() {
        for length in [0, 1, 100_000, LARGE - 1, LARGE, LARGE + STEP + 1] {
            let bytes: Vec<u8> = (0..length).map(|index| (index % 251) as u8).collect();
            let known = length as u64;
            let large = LARGE as u64;
            for length in [
                Some(known),
                Some(known + 1),
                Some(known / 2),
                Some(3 * large),
                Some(0),
                None,
            ] {
                let read = opened(&known.to_string(), &bytes, length).read(&Progress::none());
                assert!(read.unwrap() == bytes, "{known} {length:?}");
            }
        }
    }

    /// What was read before stays read, as a shell's loop has it.
    #[test]
    fn reading_goes_on_where_the_file_stands() {
        let mut opened = opened("place", b"front and back", Some(14));
        opened.file.read_exact(&mut [0; 6]).unwrap();
        assert_eq!(opened.read(&Progress::none()).unwrap(), b"and back");
    }
}

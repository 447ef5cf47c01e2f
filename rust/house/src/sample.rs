//! A small repository in a folder of its own, for tests.

use std::fs;
use std::path::{Path, PathBuf};
use std::sync::atomic::{AtomicUsize, Ordering};

static MADE: AtomicUsize = AtomicUsize::new(0);

pub struct Sample {
    root: PathBuf,
}

impl Sample {
    /// A repository of these files.
    pub fn new(files: &[(&str, &str)]) -> Sample {
        let number = MADE.fetch_add(1, Ordering::Relaxed);
        let root = std::env::temp_dir().join(format!("house-{}-{number}", std::process::id()));
        let sample = Sample { root };
        sample.with(files)
    }

    /// The same with some files put in place of others.
    pub fn with(self, files: &[(&str, &str)]) -> Sample {
        for (name, text) in files {
            let path = self.root.join(name);
            fs::create_dir_all(path.parent().unwrap()).unwrap();
            fs::write(path, text).unwrap();
        }
        self
    }

    pub fn root(&self) -> &Path {
        &self.root
    }

    pub fn read(&self, name: &str) -> String {
        fs::read_to_string(self.root.join(name)).unwrap()
    }
}

impl Drop for Sample {
    fn drop(&mut self) {
        let _ = fs::remove_dir_all(&self.root);
    }
}

//! A file that is written over: no two runs of the command do that at once.

use std::fs::{self, File, Metadata, OpenOptions};
use std::io::{self, ErrorKind};
use std::os::unix::fs::MetadataExt;
use std::path::{Path, PathBuf};

/// A file that is there, open for writing and locked by this run. The lock goes with the process, however it ends, and leaves nothing.
pub struct Held {
    pub path: PathBuf,
    pub file: File,
    /// What it was when it was locked.
    pub told: Metadata,
}

impl Held {
    /// Waits for other runs. One of them may have put a new file in its place meanwhile: then that one is locked.
    pub fn of(path: &Path) -> io::Result<Held> {
        loop {
            let file = OpenOptions::new().write(true).open(path)?;
            lock(&file);
            let told = file.metadata()?;
            if fs::metadata(path).is_ok_and(|there| is_same(&there, &told)) {
                return Ok(Held { path: path.to_path_buf(), file, told });
            }
        }
    }

    /// Whether it is what it was when it was locked; not every program heeds a lock.
    pub fn is_unchanged(&self) -> bool {
        let state = |told: &Metadata| (told.len(), told.mtime(), told.mtime_nsec());
        fs::metadata(&self.path).is_ok_and(|there| is_same(&there, &self.told) && state(&there) == state(&self.told))
    }
}

/// Where the system has no locks for a file, the run goes on without; what was read is looked at again before it is written.
fn lock(file: &File) {
    while file.lock().is_err_and(|error| error.kind() == ErrorKind::Interrupted) {}
}

/// Whether two are one file.
pub fn is_same(one: &Metadata, other: &Metadata) -> bool {
    (one.dev(), one.ino()) == (other.dev(), other.ino())
}

//! Files written whole or not at all: what is there stays until the new bytes are on the disk.

use super::beside::Beside;
use super::held::Held;
use crate::command::show;
use crate::command::stop::reason;
use std::env;
use std::fs::File;
use std::io;
use std::os::unix::fs::{FileExt, MetadataExt};
use std::path::Path;

const ONLY_COPY: &str = "it was read, and no new file can take its place: name another output";
pub const CHANGED: &str = "it was changed since it was read, and is left as it is: do it again";

fn folder(path: &Path) -> &Path {
    path.parent().unwrap_or(Path::new("/"))
}

/// A file where none is.
pub fn new(path: &Path, bytes: &[u8]) -> io::Result<()> {
    let mut beside = Beside::new(folder(path), None)?;
    beside.fill(bytes)?;
    beside.take(path)?;
    settled(&beside)
}

/// Its name is on the disk too.
fn settled(taken: &Beside) -> io::Result<()> {
    let told = |error: io::Error| format!("it is written, but its name may not be on the disk: {}", reason(&error));
    taken.sync_name().map_err(|error| io::Error::other(told(error)))
}

/// In the place of a file that was read, and may be the only copy of what it holds.
pub fn instead(read: &Held, bytes: &[u8]) -> io::Result<()> {
    let only_copy = || io::Error::other(ONLY_COPY);
    if read.told.nlink() > 1 {
        return Err(only_copy());
    }
    let mut beside = Beside::new(folder(&read.path), Some(&read.told)).map_err(|_| only_copy())?;
    if !beside.is_like {
        return Err(only_copy());
    }
    beside.fill(bytes)?;
    if !read.is_unchanged() {
        return Err(io::Error::other(CHANGED));
    }
    beside.take(&read.path)?;
    settled(&beside)
}

/// Over a file that is there. Where no new one can take its place, since it has more links, another owner, or a folder that takes no file, the
/// bytes are copied over it once they are on the disk in another file, which stays where that fails.
pub fn over(old: &Held, bytes: &[u8]) -> io::Result<()> {
    let there = Some(&old.told);
    let mut beside = Beside::new(folder(&old.path), there).or_else(|_| Beside::new(&env::temp_dir(), there))?;
    beside.fill(bytes)?;
    if old.told.nlink() == 1 && beside.is_like && beside.take(&old.path).is_ok() {
        return settled(&beside);
    }
    beside.sync_name()?;
    copy(&old.file, old.told.len(), bytes).map_err(|error| {
        let copy = show::name(beside.kept().as_os_str());
        io::Error::other(format!("{}; what was to be written stands whole in {copy}", reason(&error)))
    })
}

/// Copies bytes over a file. Those behind its end come first: where the disk has no room for them, it is again what it was. There is no sync in
/// between, which would make the time longer in which it is neither the old one nor the new one.
fn copy(file: &File, old: u64, bytes: &[u8]) -> io::Result<()> {
    let (front, behind) = bytes.split_at(bytes.len().min(old as usize));
    if let Err(error) = file.write_all_at(behind, old) {
        file.set_len(old)?;
        return Err(error);
    }
    file.write_all_at(front, 0)?;
    file.set_len(bytes.len() as u64)?;
    file.sync_all()
}

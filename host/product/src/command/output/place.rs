//! What stands under an output's name.

use std::ffi::OsStr;
use std::fs::{self, File, Metadata, OpenOptions};
use std::io::{self, ErrorKind};
use std::os::fd::{BorrowedFd, RawFd};
use std::os::unix::ffi::OsStrExt;
use std::path::{Path, PathBuf};

pub const STANDARD_OUTPUT: RawFd = 1;

/// The system follows as many.
const MOST_LINKS: usize = 40;

/// The descriptors of this process, as links.
const DESCRIPTORS: &str = "/proc/self/fd";

pub enum Place {
    /// An open file of this process: `-`, /dev/stdout, /dev/fd/N. What is written goes where its last byte went.
    Descriptor(RawFd),
    /// A device, a pipe or a directory, or what stands under /proc.
    AsItIs(PathBuf),
    /// Nothing yet.
    New(PathBuf),
    /// A file; where the name is a symbolic link, the one that it leads to.
    File(PathBuf),
}

impl Place {
    pub fn of(name: &OsStr) -> io::Result<Place> {
        if name == "-" {
            return Ok(Place::Descriptor(STANDARD_OUTPUT));
        }
        let mut path = PathBuf::from(name);
        for followed in 0..MOST_LINKS {
            let folder = folder_of(&path)?;
            path = folder.join(path.file_name().unwrap_or_default());
            let there = fs::symlink_metadata(&path);
            if folder.starts_with("/proc") {
                return there.map(|_| descriptor_named(&path).map_or(Place::AsItIs(path), Place::Descriptor));
            }
            match there {
                Ok(there) if there.is_symlink() => path = folder.join(fs::read_link(&path)?),
                Ok(there) if there.is_file() => return Ok(Place::File(path)),
                Ok(_) => return Ok(Place::AsItIs(path)),
                Err(error) if error.kind() != ErrorKind::NotFound => return Err(error),
                Err(_) if followed == 0 => return Ok(Place::New(path)),
                Err(_) => break,
            }
        }
        Err(io::Error::other("not written through a symbolic link that leads nowhere"))
    }

    /// What is there.
    pub fn told(&self) -> io::Result<Metadata> {
        match self {
            Place::Descriptor(number) => descriptor(*number)?.metadata(),
            Place::AsItIs(path) | Place::New(path) | Place::File(path) => fs::metadata(path),
        }
    }
}

/// The folder that a path's last name stands in, without links. A path without a last name can't be written, and the system says why.
fn folder_of(path: &Path) -> io::Result<PathBuf> {
    let ends_in = |end: &[u8]| path.as_os_str().as_bytes().ends_with(end);
    if path.file_name().is_none() || ends_in(b"/") || ends_in(b"/.") {
        OpenOptions::new().write(true).open(path)?;
        return Err(ErrorKind::IsADirectory.into());
    }
    let folder = path.parent().filter(|folder| !folder.as_os_str().is_empty());
    fs::canonicalize(folder.unwrap_or(Path::new(".")))
}

/// The descriptor of this process that a path under /proc stands for.
fn descriptor_named(path: &Path) -> Option<RawFd> {
    let own = fs::canonicalize(DESCRIPTORS).ok()?;
    path.strip_prefix(own).ok()?.to_str()?.parse().ok()
}

/// An open file of this process by its number, opened once more: both write at one place.
pub fn descriptor(number: RawFd) -> io::Result<File> {
    // It is only asked for, and an error where it is closed.
    let lent = unsafe { BorrowedFd::borrow_raw(number) };
    lent.try_clone_to_owned().map(File::from)
}

//! Files that are read.

use super::{show, Stop};
use std::ffi::OsStr;
use std::fs::File;
use std::io::{self, Read};
use std::sync::atomic::{AtomicBool, Ordering};

/// Whether standard input was read already: it can be read once.
static READ: AtomicBool = AtomicBool::new(false);

/// What is too long is read up to here behind the longest, so that its length is refused.
const TOO_MUCH: usize = 4;

/// How long a file may be: one that starts with the bytes given, and any other.
pub struct Most {
    pub magic: &'static [u8],
    pub with: usize,
    pub without: usize,
}

/// All of a file, or of standard input for `-`; of one that is longer only so much that its length is refused.
pub fn read(name: &OsStr, longest: usize) -> Result<Vec<u8>, Stop> {
    let mut bytes = Vec::new();
    read_into(name, &Most { magic: &[], with: longest, without: longest }, &mut bytes).map(|()| bytes)
}

/// The same in the place of what was read before it.
pub fn read_into(name: &OsStr, most: &Most, bytes: &mut Vec<u8>) -> Result<(), Stop> {
    bytes.clear();
    let taken = match name == "-" {
        true => take(standard()?, most, bytes),
        false => File::open(name).and_then(|file| take_file(file, most, bytes)),
    };
    taken.map_err(|error| Stop::file(&shown(name), &error))
}

/// A file that says it is short enough is read at once, into memory of its length.
fn take_file(mut file: File, most: &Most, bytes: &mut Vec<u8>) -> io::Result<()> {
    let told = file.metadata()?;
    if told.is_file() && told.len() <= most.without as u64 {
        return file.read_to_end(bytes).map(|_| bytes.truncate(most.without + TOO_MUCH));
    }
    take(file, most, bytes)
}

fn take(mut from: impl Read, most: &Most, bytes: &mut Vec<u8>) -> io::Result<()> {
    from.by_ref().take(most.magic.len() as u64).read_to_end(bytes)?;
    let longest = if bytes == most.magic { most.with } else { most.without };
    from.take((longest + TOO_MUCH - bytes.len()) as u64).read_to_end(bytes).map(|_| ())
}

fn standard() -> Result<impl Read, Stop> {
    if READ.swap(true, Ordering::Relaxed) {
        return Err(Stop::Trouble("standard input is named twice, and can be read once".to_string()));
    }
    Ok(io::stdin().lock())
}

/// How a file is called in messages.
pub fn shown(name: &OsStr) -> String {
    if name == "-" {
        "standard input".to_string()
    } else {
        show::name(name)
    }
}

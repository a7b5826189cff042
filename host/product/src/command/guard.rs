//! What is not written over without `--force`: a file that is read, and a `.dwo` file. Both may be the only copy.

use super::call::Call;
use super::frame::Frame;
use super::output::{self, descriptor, is_same, Place};
use super::{input, Stop};
use std::ffi::{OsStr, OsString};
use std::fs::{self, File, Metadata};
use std::io;
use std::os::unix::ffi::OsStrExt;
use std::os::unix::fs::FileExt;
use std::path::Path;

const STANDARD_INPUT: i32 = 0;

const HINT: &str = "name another output, or give --force";

/// Refuses an output that would stand in for one of the files read, or for a `.dwo` file. A package that is added to may be replaced; what
/// is appended to one by a redirection spoils it.
pub fn judge(call: &Call, to: &OsStr, files: &[OsString]) -> Result<(), Stop> {
    if call.has("force") {
        return Ok(());
    }
    // What is wrong with the output's name is told where it is written.
    let Ok(place) = Place::of(to) else { return Ok(()) };
    let Some(there) = place.told().ok().filter(Metadata::is_file) else { return Ok(()) };
    let refused = |why: String| Err(Stop::Trouble(format!("{}: {why}: {HINT}", output::shown(to))));
    let package = call.value("add").filter(|name| is_file(name, &there));
    let lists = call.operands.iter().filter_map(|name| name.as_bytes().strip_prefix(b"@")).map(OsStr::from_bytes);
    let spoilt = package.filter(|_| !matches!(place, Place::File(_)));
    let mut read = files.iter().map(OsString::as_os_str).chain(lists).chain(spoilt);
    if let Some(name) = read.find(|name| is_file(name, &there)) {
        return refused(format!("it is the same file as {}, which is read", input::shown(name)));
    }
    match place {
        Place::File(path) if package.is_none() && is_dwo(&path) => {
            refused("it holds debug sections to be packed, as a .dwo file does, perhaps the only copy".to_string())
        }
        _ => Ok(()),
    }
}

/// What is read under a name.
fn told(name: &OsStr) -> io::Result<Metadata> {
    match name == "-" {
        true => descriptor(STANDARD_INPUT).and_then(|file| file.metadata()),
        false => fs::metadata(name),
    }
}

/// Whether a file that is read is a certain one.
fn is_file(name: &OsStr, there: &Metadata) -> bool {
    told(name).is_ok_and(|told| is_same(&told, there))
}

/// Whether one file is read under two names.
pub fn are_one_file(one: &OsStr, other: &OsStr) -> bool {
    told(one).is_ok_and(|told| told.is_file() && is_file(other, &told))
}

/// Whether what is read under one name is the file under another. Names that lead to one place do so whatever stands there meanwhile.
pub fn is_one_file(read: &OsStr, other: &OsStr) -> bool {
    let file = |name: &OsStr| match Place::of(name) {
        Ok(Place::File(path)) => Some(path),
        _ => None,
    };
    let Some(path) = file(other) else { return false };
    read != "-" && file(read).as_ref() == Some(&path) || fs::metadata(path).is_ok_and(|there| is_file(read, &there))
}

/// Whether a `.dwo` file stands there, whatever its name.
fn is_dwo(path: &Path) -> bool {
    let Ok(file) = File::open(path) else { return false };
    Frame::of(&|buffer, at| file.read_exact_at(buffer, at)).is_some_and(|frame| frame.is_dwo())
}

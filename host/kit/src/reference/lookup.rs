//! "Looking up": a part of a package, or a string of a unit.

use super::bundle::{length_is_good, Bundle, Encoding, Object};
use super::bytes::number;
use super::index::{Index, Probe};
use super::strings::{header_size, string_at};
use barthovin::answer::Found;

const LONGEST_PACKAGE: usize = 117_440_512;
const STR_OFFSETS: u32 = 6;
const STR: u32 = 11;
const CU_INDEX: u32 = 12;
const TU_INDEX: u32 = 13;

/// A package that 21 lets pass.
struct Package<'a> {
    object: Option<Object<'a>>,
    encoding: Encoding,
    cu_index: Option<Index>,
    tu_index: Option<Index>,
}

impl<'a> Package<'a> {
    fn read(bytes: &'a [u8]) -> Option<Package<'a>> {
        if !length_is_good(bytes.len(), LONGEST_PACKAGE) {
            return None;
        }
        let Bundle { big, mut objects } = Bundle::read(bytes)?;
        let object = objects.pop();
        if !objects.is_empty() {
            return None;
        }
        let encoding = Encoding::of(big, object.as_ref().map_or(0, |o| o.word));
        let mut package = Package { object, encoding, cu_index: None, tu_index: None };
        if let Some(object) = &package.object {
            if !encoding.is_known() || (1..=TU_INDEX).any(|code| object.count(code) > 1) {
                return None;
            }
            package.cu_index = read_index(object, CU_INDEX, big)?;
            package.tu_index = read_index(object, TU_INDEX, big)?;
        }
        Some(package)
    }

    /// Start in the package and bytes of a section.
    fn section(&self, code: u32) -> Option<(usize, &'a [u8])> {
        let section = self.object.as_ref()?.section(code)?;
        Some((section.start, section.bytes))
    }
}

/// The outer none is an ill-formed index, the inner one a missing one.
fn read_index(object: &Object, code: u32, big: bool) -> Option<Option<Index>> {
    match object.section(code) {
        None => Some(None),
        Some(section) => Index::read(section.bytes, big).map(Some),
    }
}

/// 21 and 22.
fn opened(bytes: &[u8], version: u32) -> Result<Package<'_>, Found> {
    let package = Package::read(bytes).ok_or(Found::Refused(21))?;
    let other = |index: &Option<Index>| index.as_ref().is_some_and(|i| i.version != version);
    if !matches!(version, 2 | 5) || other(&package.cu_index) || other(&package.tu_index) {
        return Err(Found::Refused(22));
    }
    Ok(package)
}

/// Start, bytes and looks of a unit's part of a section (24); the error is any other answer.
fn part<'a>(package: &Package<'a>, table: u32, identity: u64, section: u32) -> Result<(usize, &'a [u8], usize), Found> {
    let index = if table == 1 { &package.cu_index } else { &package.tu_index };
    let index = index.as_ref().ok_or(Found::Absent(0))?;
    let (row, looks) = match index.probe(identity) {
        Probe::Row(row, looks) => (row, looks),
        Probe::Absent(looks) => return Err(Found::Absent(looks)),
    };
    let Some((offset, size)) = index.cell(row, section) else { return Ok((0, &[], looks)) };
    let (start, bytes) = package.section(section).ok_or(Found::Refused(24))?;
    let end = (offset + size) as usize;
    let part = bytes.get(offset as usize..end).ok_or(Found::Refused(24))?;
    Ok((start + offset as usize, part, looks))
}

pub fn lookup(bytes: &[u8], version: u32, table: u32, identity: u64, section: u32) -> Found {
    let find = || {
        let package = opened(bytes, version)?;
        if !(1..=2).contains(&table) || !(1..=10).contains(&section) {
            return Err(Found::Refused(23));
        }
        let (start, part, looks) = part(&package, table, identity, section)?;
        Ok(Found::Part { start, length: part.len(), looks })
    };
    find().unwrap_or_else(|other| other)
}

pub fn lookup_string(bytes: &[u8], version: u32, table: u32, identity: u64, entry: u64) -> Found {
    let find = || {
        let package = opened(bytes, version)?;
        if !(1..=2).contains(&table) {
            return Err(Found::Refused(23));
        }
        let (_, part, looks) = part(&package, table, identity, STR_OFFSETS)?;
        let encoding = package.encoding;
        let entries = part.get(header_size(version, encoding.width)..).unwrap_or(&[]);
        let at = usize::try_from(entry).ok().and_then(|e| e.checked_mul(encoding.width));
        let offset = at.and_then(|at| number(entries, at, encoding.width, encoding.big)).ok_or(Found::Refused(25))?;
        let (start, strings) = package.section(STR).ok_or(Found::Refused(26))?;
        let string = string_at(strings, offset).ok_or(Found::Refused(26))?;
        Ok(Found::Part { start: start + offset as usize, length: string.len(), looks })
    };
    find().unwrap_or_else(|other| other)
}

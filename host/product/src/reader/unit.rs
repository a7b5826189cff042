//! The units of an object: where they lie, and their identities.

use super::abbreviations;
use super::bundle::{Encoding, Object};
use super::index::Index;
use super::number;
use crate::names::{ABBREV, CU_INDEX, INFO, TYPES};
use std::collections::HashMap;

/// A unit: the number of its section in the object, and where it lies in that section and in the bundle.
#[derive(Clone, Copy, Debug, PartialEq, Eq)]
pub struct Span {
    pub nth: usize,
    pub section: u32,
    pub offset: usize,
    pub end: usize,
    pub at: usize,
}

pub fn is_of_units(code: u32) -> bool {
    code == INFO || code == TYPES
}

/// The units of an object by their lengths alone; where a length can't be, the unit ends with its section.
pub fn spans(object: &Object) -> Vec<Span> {
    let mut spans = Vec::new();
    for (nth, section) in object.sections.iter().enumerate().filter(|(_, s)| is_of_units(s.code)) {
        let mut offset = 0;
        while offset < section.bytes.len() {
            let rest = &section.bytes[offset..];
            let size = initial_length(rest, object.encoding.big).ok().and_then(|(field, length)| {
                usize::try_from(length).ok()?.checked_add(field).filter(|size| *size <= rest.len())
            });
            let end = offset + size.unwrap_or(rest.len());
            spans.push(Span { nth, section: section.code, offset, end, at: section.start + offset });
            offset = end;
        }
    }
    spans
}

/// The size of the length field, which tells the offset width, and the length that follows it.
pub(super) fn initial_length(bytes: &[u8], big: bool) -> Result<(usize, u64), String> {
    let short = || format!("{} bytes are left, fewer than a length takes", bytes.len());
    match number(bytes, 0, 4, big).ok_or_else(short)? {
        0xFFFF_FFFF => Ok((12, number(bytes, 4, 8, big).ok_or_else(short)?)),
        reserved if reserved >= 0xFFFF_FFF0 => Err(format!("its length {reserved:#x} is reserved")),
        length => Ok((4, length)),
    }
}

/// Why a unit's table and identity can't be read: its header, the row of its place, or the identity itself.
#[derive(Clone, Debug, PartialEq, Eq)]
pub enum Why {
    Header(String),
    Row(String),
    Identity(String),
}

/// The rows of a version 4 object's cu_index, by the places that their info cells name.
struct Rows {
    index: Index,
    places: HashMap<(u64, u64), Vec<u32>>,
}

impl Rows {
    /// None where there is no index, or an ill-formed one, which is refused before any unit.
    fn of(object: &Object) -> Option<Rows> {
        if object.encoding.version() != 4 {
            return None;
        }
        let index = Index::read(object.section(CU_INDEX)?.bytes, object.encoding.big).ok()?;
        let mut places: HashMap<(u64, u64), Vec<u32>> = HashMap::new();
        for row in 1..=index.units as u32 {
            if let Some(place) = index.part(row, INFO) {
                places.entry(place).or_default().push(row);
            }
        }
        Some(Rows { index, places })
    }

    /// The part of abbrev that the one row of a place names.
    fn abbrev<'b>(&self, whole: &'b [u8], offset: usize, size: usize) -> Result<&'b [u8], String> {
        let row = match self.places.get(&(offset as u64, size as u64)).map_or(&[][..], Vec::as_slice) {
            [row] => *row,
            [] => return Err(format!("no row of cu_index names its place, {size} bytes at {offset} of info")),
            [one, other, ..] => return Err(format!("rows {one} and {other} of cu_index both name its place")),
        };
        if whole.is_empty() {
            return Ok(whole);
        }
        let (from, size) = self.index.part(row, ABBREV).ok_or("cu_index has no column for abbrev")?;
        let outside =
            || format!("row {row} of cu_index names {size} bytes at {from} of abbrev, which has {}", whole.len());
        whole.get(from as usize..(from + size) as usize).ok_or_else(outside)
    }
}

/// Reads the identities of one object's units.
pub struct Identities<'o, 'b> {
    object: &'o Object<'b>,
    rows: Option<Rows>,
}

impl<'o, 'b> Identities<'o, 'b> {
    pub fn of(object: &'o Object<'b>) -> Identities<'o, 'b> {
        Identities { object, rows: Rows::of(object) }
    }

    /// The bytes in which a compilation unit of version 4 has its abbreviations, and how they are called.
    fn abbrev(&self, span: &Span, size: usize) -> Result<(&'b [u8], &'static str), Why> {
        let whole = self.object.bytes(ABBREV);
        match &self.rows {
            Some(rows) => Ok((rows.abbrev(whole, span.offset, size).map_err(Why::Row)?, "its part of abbrev")),
            None => Ok((whole, "abbrev")),
        }
    }

    /// The table, 1 or 2, and the identity of a unit.
    pub fn identity(&self, span: &Span) -> Result<(u32, u64), Why> {
        let encoding = self.object.encoding;
        let bytes = &self.object.sections[span.nth].bytes[span.offset..];
        let (field, length) = initial_length(bytes, encoding.big).map_err(Why::Header)?;
        let left = bytes.len() - field;
        let unit = match usize::try_from(length) {
            Ok(length) if length <= left => &bytes[..field + length],
            _ => return Err(Why::Header(format!("its length is {length}, and {left} bytes follow"))),
        };
        if (field == 12) != (encoding.width() == 8) {
            return Err(Why::Header(format!("its offset width is {}", if field == 12 { 8 } else { 4 })));
        }
        if encoding.version() == 5 {
            version5(unit, field, encoding)
        } else {
            self.version4(span, unit, field)
        }
    }

    /// Length, version, abbreviation offset, address size, and in types the signature and the type's offset.
    fn version4(&self, span: &Span, unit: &[u8], field: usize) -> Result<(u32, u64), Why> {
        let encoding = self.object.encoding;
        let (big, width) = (encoding.big, encoding.width());
        let common = field + 3 + width;
        let address = header_field(unit, common - 1, 1, big)?;
        judge_common(encoding, header_field(unit, field, 2, big)?, address)?;
        if span.section == TYPES {
            header_field(unit, common + 8, width, big)?;
            return Ok((2, header_field(unit, common, 8, big)?));
        }
        let offset = header_field(unit, field + 2, width, big)?;
        let (abbrev, name) = self.abbrev(span, unit.len())?;
        let identity = abbreviations::identity(abbrev, name, offset, &unit[common..], encoding);
        Ok((1, identity.map_err(Why::Identity)?))
    }
}

fn header_field(unit: &[u8], at: usize, width: usize, big: bool) -> Result<u64, Why> {
    let short = || Why::Header(format!("it has {} bytes, fewer than its header", unit.len()));
    number(unit, at, width, big).ok_or_else(short)
}

/// Version and address size must be the object's.
fn judge_common(encoding: Encoding, version: u64, address: u64) -> Result<(), Why> {
    if version != u64::from(encoding.version()) {
        return Err(Why::Header(format!("its version is {version}, its object's {}", encoding.version())));
    }
    if address != encoding.address() as u64 {
        return Err(Why::Header(format!("its address size is {address}, its object's {}", encoding.address())));
    }
    Ok(())
}

/// Length, version, unit type, address size, abbreviation offset, identity, and for a type its offset.
fn version5(unit: &[u8], field: usize, encoding: Encoding) -> Result<(u32, u64), Why> {
    let (big, width) = (encoding.big, encoding.width());
    let common = field + 4 + width;
    let kind = header_field(unit, field + 2, 1, big)?;
    judge_common(encoding, header_field(unit, field, 2, big)?, header_field(unit, field + 3, 1, big)?)?;
    header_field(unit, field + 4, width, big)?;
    let table = match kind {
        4 | 5 => 1,
        2 | 6 => 2,
        _ => return Err(Why::Identity(format!("units of type {kind} have none; types 2, 4, 5 and 6 do"))),
    };
    if table == 2 {
        header_field(unit, common + 8, width, big)?;
    }
    Ok((table, header_field(unit, common, 8, big)?))
}

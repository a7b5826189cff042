//! A unit (FORMAT 3), read at the front of what is left of its section.

use super::abbreviations;
use super::bundle::Encoding;
use super::bytes::number;

#[derive(Clone, Copy, Debug, PartialEq, Eq, Hash, PartialOrd, Ord)]
pub enum Table {
    Compilation,
    Type,
}

#[derive(Clone, Copy, Debug, PartialEq, Eq)]
pub struct Unit {
    pub size: usize,
    pub table: Table,
    pub identity: u64,
}

/// The code of the types section.
pub const TYPES: u32 = 2;

/// Length, and how many bytes the length field takes, which says the unit's width.
fn initial_length(bytes: &[u8], big: bool) -> Option<(u64, usize)> {
    match number(bytes, 0, 4, big)? {
        0xFFFF_FFFF => Some((number(bytes, 4, 8, big)?, 12)),
        0xFFFF_FFF0..=0xFFFF_FFFE => None,
        length => Some((length, 4)),
    }
}

/// The unit's own bytes and the size of its length field (11).
fn unit_bytes(bytes: &[u8], encoding: Encoding) -> Option<(&[u8], usize)> {
    let (length, field) = initial_length(bytes, encoding.big)?;
    let wide = field == 12;
    if wide != (encoding.width == 8) {
        return None;
    }
    let size = usize::try_from(length).ok()?.checked_add(field)?;
    Some((bytes.get(..size)?, field))
}

/// A unit of a section of the code given, info or types; the error is the refusal. `abbrev` gives the abbreviations of a unit of the
/// size that it is told, or the refusal that stands in for them; it is asked for a compilation unit of version 4 alone, once its header
/// is good.
pub fn read<'a>(
    code: u32,
    bytes: &[u8],
    abbrev: impl FnOnce(usize) -> Result<&'a [u8], u32>,
    encoding: Encoding,
) -> Result<Unit, u32> {
    let (unit, field) = unit_bytes(bytes, encoding).ok_or(11u32)?;
    let (table, identity) = if encoding.version == 5 {
        version5(unit, field, encoding)?
    } else {
        version4(code, unit, field, abbrev, encoding)?
    };
    if identity == 0 {
        return Err(13);
    }
    Ok(Unit { size: unit.len(), table, identity })
}

/// Version and address size must be the object's, the fields common to all types must be there.
fn common_is_good(unit: &[u8], field: usize, address_at: usize, size: usize, encoding: Encoding) -> bool {
    number(unit, field, 2, encoding.big) == Some(encoding.version.into())
        && number(unit, address_at, 1, encoding.big) == Some(encoding.address.into())
        && unit.len() >= size
}

/// Header: length, version, unit type, address size, abbreviation offset, identity, and for a type its offset.
fn version5(unit: &[u8], field: usize, encoding: Encoding) -> Result<(Table, u64), u32> {
    let common = field + 4 + encoding.width;
    if !common_is_good(unit, field, field + 3, common, encoding) {
        return Err(11);
    }
    let (table, size) = match unit[field + 2] {
        4 | 5 => (Table::Compilation, common + 8),
        2 | 6 => (Table::Type, common + 8 + encoding.width),
        _ => return Err(12),
    };
    if unit.len() < size {
        return Err(11);
    }
    Ok((table, number(unit, common, 8, encoding.big).ok_or(11u32)?))
}

/// Header: length, version, abbreviation offset, address size, and in types the signature and the type's offset.
fn version4<'a>(
    code: u32,
    unit: &[u8],
    field: usize,
    abbrev: impl FnOnce(usize) -> Result<&'a [u8], u32>,
    encoding: Encoding,
) -> Result<(Table, u64), u32> {
    let common = field + 3 + encoding.width;
    let size = if code == TYPES { common + 8 + encoding.width } else { common };
    if !common_is_good(unit, field, common - 1, size, encoding) {
        return Err(11);
    }
    if code == TYPES {
        return Ok((Table::Type, number(unit, common, 8, encoding.big).ok_or(11u32)?));
    }
    let offset = number(unit, field + 2, encoding.width, encoding.big).ok_or(11u32)?;
    let abbrev = abbrev(unit.len())?;
    let identity = abbreviations::identity(abbrev, offset, &unit[common..], encoding).ok_or(12u32)?;
    Ok((Table::Compilation, identity))
}

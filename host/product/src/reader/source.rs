//! The source of a compilation unit: the DW_AT_name of its root, for people who look for a file and not for a number. Where it can't be read there is
//! none.
//!
//! Any number of rows may name one unit, and any number of units one long run of declarations. So no more bytes are walked for all names together
//! than a package has twice; whatever is left then has no name.

use super::abbreviations::{size_of, Front, IMPLICIT_CONST, INDIRECT};
use super::bundle::{Encoding, Object};
use super::index::Index;
use super::number;
use super::package::Package;
use super::unit::initial_length;
use crate::names::{ABBREV, INFO, STR, STR_OFFSETS};

const NAME: u64 = 0x03;
/// The unit types of version 5 that have a compilation unit's header.
const COMPILATION: [u64; 2] = [4, 5];

/// A number of LEB128 has at most so many bytes.
const LONGEST_NUMBER: usize = 10;

/// A value of the root: its bytes where they stand in the unit, the number of an entry of str_offsets, or something else.
enum Value<'a> {
    Inline(&'a [u8]),
    Entry(u64),
    Other,
}

/// Reads the names of a package's compilation units.
pub struct Sources<'p, 'b> {
    object: Option<&'p Object<'b>>,
    index: Option<&'p Index>,
    /// So many bytes may still be walked.
    left: usize,
}

impl<'p, 'b> Sources<'p, 'b> {
    pub fn of(package: &'p Package<'b>) -> Sources<'p, 'b> {
        let object = package.object.as_ref();
        let bytes: usize = object.iter().flat_map(|o| &o.sections).map(|section| section.bytes.len()).sum();
        Sources { object, index: package.index(1), left: 2 * bytes }
    }

    /// The name of the unit of a row of cu_index; rows count from 1.
    pub fn name(&mut self, row: u32) -> Option<&'b [u8]> {
        let encoding = self.object?.encoding;
        let unit = self.part(row, INFO)?;
        let (offset, root) = unit_header(unit, encoding)?;
        let table = self.part(row, ABBREV)?.get(usize::try_from(offset).ok()?..)?;
        let mut root = Front(&root[..root.len().min(self.left)]);
        let code = root.leb128(LONGEST_NUMBER)?;
        let attributes = self.declared(table, code)?;
        let before = root.0.len();
        let value = named(&attributes, &mut root, encoding);
        self.spend(before - root.0.len() + attributes.len());
        match value? {
            Value::Inline(name) => Some(name),
            Value::Entry(entry) => self.string(row, entry),
            Value::Other => None,
        }
    }

    fn spend(&mut self, bytes: usize) {
        self.left = self.left.saturating_sub(bytes);
    }

    /// The bytes of a section that a row names.
    fn part(&self, row: u32, code: u32) -> Option<&'b [u8]> {
        let (offset, size) = self.index?.part(row, code)?;
        self.object?.bytes(code).get(usize::try_from(offset).ok()?..usize::try_from(offset + size).ok()?)
    }

    /// The attributes, each a name and a form, that a table declares for a code.
    fn declared(&mut self, table: &[u8], code: u64) -> Option<Vec<(u64, u64)>> {
        let within = table.len().min(self.left);
        let mut front = Front(&table[..within]);
        let found = find(&mut front, code);
        self.spend(within - front.0.len());
        found
    }

    /// The string of an entry of a row's part of str_offsets.
    fn string(&mut self, row: u32, entry: u64) -> Option<&'b [u8]> {
        let encoding = self.object?.encoding;
        let (width, big) = (encoding.width(), encoding.big);
        let header = if encoding.version() == 5 { 2 * width } else { 0 };
        let at = usize::try_from(entry).ok()?.checked_mul(width)?.checked_add(header)?;
        let offset = number(self.part(row, STR_OFFSETS)?, at, width, big)?;
        let rest = self.object?.bytes(STR).get(usize::try_from(offset).ok()?..)?;
        let rest = &rest[..rest.len().min(self.left)];
        let end = rest.iter().position(|byte| *byte == 0);
        self.spend(end.map_or(rest.len(), |end| end + 1));
        Some(&rest[..end?])
    }
}

/// Where a unit's declarations stand in its part of abbrev, and the bytes of its entries, the root's first.
fn unit_header(unit: &[u8], encoding: Encoding) -> Option<(u64, &[u8])> {
    let (big, width) = (encoding.big, encoding.width());
    let (field, _) = initial_length(unit, big).ok()?;
    if encoding.version() == 4 {
        return Some((number(unit, field + 2, width, big)?, unit.get(field + 3 + width..)?));
    }
    let kind = number(unit, field + 2, 1, big)?;
    let entries = unit.get(field + 4 + width + 8..)?;
    COMPILATION.contains(&kind).then_some((number(unit, field + 4, width, big)?, entries))
}

/// Walks declarations up to that of a code; its attributes.
fn find(front: &mut Front, code: u64) -> Option<Vec<(u64, u64)>> {
    loop {
        let here = front.leb128(LONGEST_NUMBER).filter(|here| *here != 0)?;
        front.short()?;
        front.take(1)?;
        let attributes = attributes(front)?;
        if here == code {
            return Some(attributes);
        }
    }
}

/// Names and forms up to the pair of zeros. A constant stands with its form.
fn attributes(front: &mut Front) -> Option<Vec<(u64, u64)>> {
    let mut attributes = Vec::new();
    loop {
        match (front.short()?, front.short()?) {
            (0, 0) => return Some(attributes),
            pair => attributes.push(pair),
        }
        if attributes.last().is_some_and(|(_, form)| *form == IMPLICIT_CONST) {
            signed(front)?;
        }
    }
}

/// Takes a signed LEB128 number.
fn signed(front: &mut Front) -> Option<()> {
    let last = front.0.iter().take(LONGEST_NUMBER).position(|byte| byte & 0x80 == 0)?;
    front.take(last + 1).map(|_| ())
}

/// The value of the root's first attribute that is a name.
fn named<'a>(attributes: &[(u64, u64)], root: &mut Front<'a>, encoding: Encoding) -> Option<Value<'a>> {
    for (name, form) in attributes {
        let value = value(*form, root, encoding)?;
        if *name == NAME {
            return Some(value);
        }
    }
    None
}

/// The value of a form, which is taken. Beside the forms of version 4 all those of version 5.
fn value<'a>(form: u64, front: &mut Front<'a>, encoding: Encoding) -> Option<Value<'a>> {
    let form = if form == INDIRECT { front.short()? } else { form };
    let short = |front: &mut Front<'a>, width: usize| number(front.take(width)?, 0, width, encoding.big);
    Some(match form {
        0x08 => {
            let end = front.0.iter().position(|byte| *byte == 0)?;
            Value::Inline(&front.take(end + 1)?[..end])
        }
        // A string by the number of its entry: in a number of any length, or in one to four bytes.
        0x1A | 0x1F02 => Value::Entry(front.leb128(LONGEST_NUMBER)?),
        0x25..=0x28 => Value::Entry(short(front, form as usize - 0x24)?),
        _ => {
            let size = more_sizes(form, front, encoding).or_else(|| size_of(form, front, encoding)?)?;
            front.take(size)?;
            Value::Other
        }
    })
}

/// How many bytes a value of a form takes that only version 5 has; numbers of any length are taken here.
fn more_sizes(form: u64, front: &mut Front, encoding: Encoding) -> Option<usize> {
    match form {
        IMPLICIT_CONST => Some(0),
        0x1B | 0x22 | 0x23 => front.leb128(LONGEST_NUMBER).map(|_| 0),
        0x29..=0x2C => Some(form as usize - 0x28),
        0x1C => Some(4),
        0x24 => Some(8),
        0x1E => Some(16),
        0x1D | 0x1F | 0x1F20 | 0x1F21 => Some(encoding.width()),
        _ => None,
    }
}

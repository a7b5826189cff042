//! Identities of version 4: an abbreviation table, and the attributes of a unit's root.

use super::bundle::Encoding;
use super::number;

const DATA8: u64 = 0x07;
pub(super) const INDIRECT: u64 = 0x16;
pub(super) const IMPLICIT_CONST: u64 = 0x21;
const GNU_DWO_ID: u64 = 0x2131;
const COMPILE_UNIT: u64 = 0x11;
const TYPE_UNIT: u64 = 0x41;

struct Declaration {
    code: u64,
    tag: u64,
    attributes: Vec<(u64, u64)>,
}

/// Bytes that are read from the front.
pub(super) struct Front<'a>(pub(super) &'a [u8]);

impl<'a> Front<'a> {
    pub(super) fn take(&mut self, count: usize) -> Option<&'a [u8]> {
        let (front, rest) = self.0.split_at_checked(count)?;
        self.0 = rest;
        Some(front)
    }

    /// An unsigned LEB128 number of at most so many bytes that fits 64 bits.
    pub(super) fn leb128(&mut self, most: usize) -> Option<u64> {
        let mut value = 0u64;
        for i in 0..most {
            let byte = self.take(1)?[0];
            let bits = u64::from(byte & 0x7F);
            if i == 9 && bits > 1 {
                return None;
            }
            value |= bits << (7 * i);
            if byte & 0x80 == 0 {
                return Some(value);
            }
        }
        None
    }

    /// A tag, name or form.
    pub(super) fn short(&mut self) -> Option<u64> {
        self.leb128(3).filter(|value| *value <= 0xFFFF)
    }
}

/// The identity of a unit whose root starts at `root` and whose table lies at `offset` of abbrev, or of its part of it, as `name` says; the
/// error says why it can't be read.
pub fn identity(abbrev: &[u8], name: &str, offset: u64, root: &[u8], encoding: Encoding) -> Result<u64, String> {
    let table = usize::try_from(offset).ok().and_then(|at| abbrev.get(at..));
    let table = table.ok_or_else(|| format!("its table is at byte {offset} of {name}, which has {}", abbrev.len()))?;
    let declarations = read_table(table).map_err(|why| format!("its table at byte {offset} of {name}: {why}"))?;
    let mut front = Front(root);
    let code = front.leb128(10).ok_or("the root's code can't be read")?;
    let root = declarations.iter().find(|d| d.code == code).ok_or(format!("the root's code {code} is not declared"))?;
    if ![COMPILE_UNIT, TYPE_UNIT].contains(&root.tag) {
        return Err(format!("the root's tag is {:#x}, neither a compilation unit nor a type unit", root.tag));
    }
    root_identity(root, &mut front, encoding)
}

/// All declarations up to the zero code.
fn read_table(bytes: &[u8]) -> Result<Vec<Declaration>, String> {
    let mut front = Front(bytes);
    let mut table = Vec::new();
    let mut codes = std::collections::HashSet::new();
    loop {
        let code = front.leb128(10).ok_or("it doesn't end with a zero code")?;
        if code == 0 {
            return Ok(table);
        }
        if !codes.insert(code) {
            return Err(format!("code {code} is declared twice"));
        }
        let declaration = read_declaration(code, &mut front);
        table.push(declaration.ok_or(format!("the declaration of code {code} is ill-formed or doesn't end"))?);
    }
}

fn read_declaration(code: u64, front: &mut Front) -> Option<Declaration> {
    let tag = front.short().filter(|tag| *tag != 0)?;
    front.take(1).filter(|children| children[0] <= 1)?;
    let mut attributes = Vec::new();
    loop {
        match (front.short()?, front.short()?) {
            (0, 0) => return Some(Declaration { code, tag, attributes }),
            (name, form) if name == 0 || form == 0 || form == IMPLICIT_CONST => return None,
            pair => attributes.push(pair),
        }
    }
}

/// The first attribute that is called an identity; all attributes must end in the unit.
fn root_identity(root: &Declaration, front: &mut Front, encoding: Encoding) -> Result<u64, String> {
    let mut identity = None;
    for (name, declared) in &root.attributes {
        let ends = || format!("the root's attribute {name:#x} doesn't end in the unit");
        let form = if *declared == INDIRECT { front.short().ok_or_else(ends)? } else { *declared };
        let size =
            size_of(form, front, encoding).ok_or(format!("the root's attribute {name:#x} has form {form:#x}"))?;
        let value = size.and_then(|size| front.take(size)).ok_or_else(ends)?;
        if *name == GNU_DWO_ID && identity.is_none() {
            if form != DATA8 {
                return Err(format!("the root's DW_AT_GNU_dwo_id has form {form:#x}, not data8"));
            }
            identity = number(value, 0, 8, encoding.big);
        }
    }
    identity.ok_or("the root has no DW_AT_GNU_dwo_id".to_string())
}

/// How many bytes a value takes following a count, which is taken. The outer none is an unknown form, the inner one a value that
/// doesn't end.
pub(super) fn size_of(form: u64, front: &mut Front, encoding: Encoding) -> Option<Option<usize>> {
    let counted = |front: &mut Front, width: usize| {
        let count = front.take(width).and_then(|field| number(field, 0, width, encoding.big));
        count.and_then(|n| usize::try_from(n).ok())
    };
    Some(match form {
        0x19 => Some(0),
        0x0B | 0x0C | 0x11 => Some(1),
        0x05 | 0x12 => Some(2),
        0x06 | 0x13 => Some(4),
        0x07 | 0x14 | 0x20 => Some(8),
        0x01 => Some(encoding.address()),
        0x0E | 0x10 | 0x17 => Some(encoding.width()),
        // LEB128 numbers are taken here, so that nothing is left to take; a signed one is as long as an unsigned one.
        0x0F | 0x15 | 0x1F01 | 0x1F02 => front.leb128(10).map(|_| 0),
        0x0D => front.0.iter().take(10).position(|b| b & 0x80 == 0).map(|last| last + 1),
        0x08 => front.0.iter().position(|b| *b == 0).map(|end| end + 1),
        0x0A => counted(front, 1),
        0x03 => counted(front, 2),
        0x04 => counted(front, 4),
        0x09 | 0x18 => front.leb128(10).and_then(|n| usize::try_from(n).ok()),
        _ => return None,
    })
}

//! Version 4 identities: the abbreviation table, the forms, and the root's attributes. Every fault is "none", which is 12.

use super::bundle::Encoding;
use super::bytes::number;
use super::leb128;

struct Declaration {
    code: u64,
    tag: u32,
    attributes: Vec<(u32, u32)>,
}

const DATA8: u32 = 0x07;
const INDIRECT: u32 = 0x16;
const IMPLICIT_CONST: u32 = 0x21;
const GNU_DWO_ID: u32 = 0x2131;
const ROOT_TAGS: [u32; 2] = [0x11, 0x41];

/// How wide a value of a form is.
#[derive(Clone, Copy)]
enum Width {
    Bytes(usize),
    Address,
    Offset,
    Unsigned,
    Signed,
    /// Up to a zero byte, which is part of it.
    Text,
    /// A count of so many bytes, and as many bytes.
    Counted(usize),
    /// A count in LEB128, and as many bytes.
    Block,
}

/// The DWARF 4 forms and two of GNU's, but for indirect, which has no width of its own.
const FORMS: [(u32, Width); 26] = [
    (0x01, Width::Address),
    (0x03, Width::Counted(2)),
    (0x04, Width::Counted(4)),
    (0x05, Width::Bytes(2)),
    (0x06, Width::Bytes(4)),
    (0x07, Width::Bytes(8)),
    (0x08, Width::Text),
    (0x09, Width::Block),
    (0x0A, Width::Counted(1)),
    (0x0B, Width::Bytes(1)),
    (0x0C, Width::Bytes(1)),
    (0x0D, Width::Signed),
    (0x0E, Width::Offset),
    (0x0F, Width::Unsigned),
    (0x10, Width::Offset),
    (0x11, Width::Bytes(1)),
    (0x12, Width::Bytes(2)),
    (0x13, Width::Bytes(4)),
    (0x14, Width::Bytes(8)),
    (0x15, Width::Unsigned),
    (0x17, Width::Offset),
    (0x18, Width::Block),
    (0x19, Width::Bytes(0)),
    (0x20, Width::Bytes(8)),
    (0x1F01, Width::Unsigned),
    (0x1F02, Width::Unsigned),
];

/// The identity of a unit whose root starts at `entry` and whose table lies at `offset` in abbrev.
pub fn identity(abbrev: &[u8], offset: u64, entry: &[u8], encoding: Encoding) -> Option<u64> {
    let table = read_table(abbrev.get(usize::try_from(offset).ok()?..)?)?;
    let (code, taken) = leb128::unsigned(entry)?;
    let root = table.iter().find(|d| d.code == code)?;
    if !ROOT_TAGS.contains(&root.tag) {
        return None;
    }
    root_identity(root, &entry[taken..], encoding)
}

/// All declarations up to the zero code.
fn read_table(bytes: &[u8]) -> Option<Vec<Declaration>> {
    let mut codes = std::collections::HashSet::new();
    let mut table = Vec::new();
    let mut rest = bytes;
    loop {
        let (code, taken) = leb128::unsigned(rest)?;
        if code == 0 {
            return Some(table);
        }
        if !codes.insert(code) {
            return None;
        }
        rest = &rest[taken..];
        let declaration = read_declaration(code, &mut rest)?;
        table.push(declaration);
    }
}

fn take_short(rest: &mut &[u8]) -> Option<u32> {
    let (value, taken) = leb128::short(rest)?;
    *rest = &rest[taken..];
    Some(value)
}

/// Tag, children byte and attributes behind a code.
fn read_declaration(code: u64, rest: &mut &[u8]) -> Option<Declaration> {
    let tag = take_short(rest)?;
    let (children, behind) = rest.split_first()?;
    if tag == 0 || *children > 1 {
        return None;
    }
    *rest = behind;
    let mut attributes = Vec::new();
    loop {
        let (name, form) = (take_short(rest)?, take_short(rest)?);
        if name == 0 && form == 0 {
            return Some(Declaration { code, tag, attributes });
        }
        if name == 0 || form == 0 || form == IMPLICIT_CONST {
            return None;
        }
        attributes.push((name, form));
    }
}

/// The value of the first attribute that is called an identity; all attributes must end in the unit.
fn root_identity(root: &Declaration, values: &[u8], encoding: Encoding) -> Option<u64> {
    let mut rest = values;
    let mut identity = None;
    for (name, declared) in &root.attributes {
        let mut form = *declared;
        if form == INDIRECT {
            form = take_short(&mut rest)?;
        }
        let value = rest.get(..value_size(form, rest, encoding)?)?;
        if *name == GNU_DWO_ID && identity.is_none() {
            if form != DATA8 {
                return None;
            }
            identity = number(value, 0, 8, encoding.big);
        }
        rest = &rest[value.len()..];
    }
    identity
}

/// How many bytes a value takes, by its form alone and what it starts with.
fn value_size(form: u32, bytes: &[u8], encoding: Encoding) -> Option<usize> {
    let (_, width) = FORMS.iter().find(|(f, _)| *f == form)?;
    match *width {
        Width::Bytes(n) => Some(n),
        Width::Address => Some(encoding.address as usize),
        Width::Offset => Some(encoding.width),
        Width::Unsigned => leb128::unsigned(bytes).map(|(_, taken)| taken),
        Width::Signed => leb128::signed(bytes),
        Width::Text => bytes.iter().position(|b| *b == 0).map(|end| end + 1),
        Width::Counted(n) => counted(n, number(bytes, 0, n, encoding.big)?),
        Width::Block => leb128::unsigned(bytes).and_then(|(count, taken)| counted(taken, count)),
    }
}

fn counted(taken: usize, count: u64) -> Option<usize> {
    taken.checked_add(usize::try_from(count).ok()?)
}

//! Abbreviation sections of version 4, and the root entries that they allow.

use super::random::Random;
use crate::reference::put;
use crate::reference::Encoding;
use std::ops::Range;

const DATA8: u64 = 0x07;
const INDIRECT: u64 = 0x16;
const GNU_DWO_ID: u64 = 0x2131;
/// The forms that a root may have, but for indirect.
const FORMS: [u64; 26] = [
    0x01, 0x03, 0x04, 0x05, 0x06, 0x07, 0x08, 0x09, 0x0A, 0x0B, 0x0C, 0x0D, 0x0E, 0x0F, 0x10, 0x11, 0x12, 0x13, 0x14,
    0x15, 0x17, 0x18, 0x19, 0x20, 0x1F01, 0x1F02,
];

/// A declaration that a root may have.
pub struct Root {
    code: u64,
    attributes: Vec<(u64, u64)>,
}

/// Tables of abbreviations among other bytes, and their roots, each with the place of its table.
pub struct Abbreviations {
    pub bytes: Vec<u8>,
    roots: Vec<(Range<usize>, Root)>,
}

/// An unsigned LEB128 number, now and then in more bytes than needed, at most `most`.
pub fn put_leb128(random: &mut Random, out: &mut Vec<u8>, value: u64, most: usize) {
    let start = out.len();
    let mut rest = value;
    while rest > 0x7F {
        out.push(rest as u8 | 0x80);
        rest >>= 7;
    }
    out.push(rest as u8);
    while out.len() - start < most && random.one_in(12) {
        if let Some(last) = out.last_mut() {
            *last |= 0x80;
        }
        out.push(0);
    }
}

impl Abbreviations {
    pub fn any(random: &mut Random) -> Abbreviations {
        let mut made = Abbreviations { bytes: random.bytes(4), roots: Vec::new() };
        for _ in 0..random.between(1, 2) {
            made.add_table(random);
        }
        if random.one_in(3) {
            made.bytes.extend(random.bytes(4));
        }
        made
    }

    pub fn any_root(&self, random: &mut Random) -> (Range<usize>, &Root) {
        let (table, root) = &self.roots[random.below(self.roots.len() as u64) as usize];
        (table.clone(), root)
    }

    fn add_table(&mut self, random: &mut Random) {
        let (start, first) = (self.bytes.len(), self.roots.len());
        let mut codes: Vec<u64> = vec![1, 2, 3, 127, 128, 300, u64::MAX];
        random.shuffle(&mut codes);
        for code in &codes[..random.between(1, 3) as usize] {
            let root = Root { code: *code, attributes: any_attributes(random) };
            let tag = random.pick(&[0x11, 0x11, 0x41]);
            self.put_declaration(random, &root, tag);
            self.roots.push((start..start, root));
        }
        if random.one_in(3) {
            // Not a root: any tag, and forms that nobody has to know.
            let attributes = vec![(random.between(1, 65535), random.pick(&[0x1A, 0x25, 0x1F20, 65535]))];
            let other = Root { code: codes[6], attributes };
            let tag = random.between(1, 65535);
            self.put_declaration(random, &other, tag);
        }
        put_leb128(random, &mut self.bytes, 0, 10);
        let end = self.bytes.len();
        self.roots[first..].iter_mut().for_each(|(table, _)| table.end = end);
    }

    fn put_declaration(&mut self, random: &mut Random, root: &Root, tag: u64) {
        put_leb128(random, &mut self.bytes, root.code, 10);
        put_leb128(random, &mut self.bytes, tag, 3);
        self.bytes.push(random.below(2) as u8);
        for (name, form) in root.attributes.iter().chain(&[(0, 0)]) {
            put_leb128(random, &mut self.bytes, *name, 3);
            put_leb128(random, &mut self.bytes, *form, 3);
        }
    }
}

/// Attributes of which the first 2131 is the identity; another one may follow it.
fn any_attributes(random: &mut Random) -> Vec<(u64, u64)> {
    let form = |random: &mut Random| if random.one_in(8) { INDIRECT } else { random.pick(&FORMS) };
    let mut attributes = Vec::new();
    for _ in 0..random.pick(&[0, 0, 1, 3]) {
        attributes.push((random.pick(&[3, 0x11, 0x2130, 0x2132, 65535]), form(random)));
    }
    attributes.push((GNU_DWO_ID, random.pick(&[DATA8, DATA8, INDIRECT])));
    for _ in 0..random.pick(&[0, 0, 1, 3]) {
        attributes.push((random.pick(&[3, 0x11, 0x2131, 65535]), form(random)));
    }
    attributes
}

impl Root {
    /// The root's code and a value for each attribute.
    pub fn put_entry(&self, random: &mut Random, encoding: Encoding, identity: u64, out: &mut Vec<u8>) {
        put_leb128(random, out, self.code, 10);
        let first = self.attributes.iter().position(|(name, _)| *name == GNU_DWO_ID);
        for (i, (_, declared)) in self.attributes.iter().enumerate() {
            let is_identity = Some(i) == first;
            let mut form = *declared;
            if form == INDIRECT {
                form = if is_identity { DATA8 } else { random.pick(&FORMS) };
                put_leb128(random, out, form, 3);
            }
            match is_identity {
                true => put(out, identity, 8, encoding.big),
                false => put_value(random, encoding, form, out),
            }
        }
    }
}

/// Any value of a form.
fn put_value(random: &mut Random, encoding: Encoding, form: u64, out: &mut Vec<u8>) {
    let fixed = |n: usize, random: &mut Random, out: &mut Vec<u8>| put(out, random.any(), n, encoding.big);
    match form {
        0x01 => fixed(encoding.address as usize, random, out),
        0x05 | 0x12 => fixed(2, random, out),
        0x06 | 0x13 => fixed(4, random, out),
        0x07 | 0x14 | 0x20 => fixed(8, random, out),
        0x0B | 0x0C | 0x11 => fixed(1, random, out),
        0x0E | 0x10 | 0x17 => fixed(encoding.width, random, out),
        0x03 => put_block(random, encoding, 2, out),
        0x04 => put_block(random, encoding, 4, out),
        0x0A => put_block(random, encoding, 1, out),
        0x09 | 0x18 => put_block(random, encoding, 0, out),
        0x0D => put_signed(random, out),
        0x0F | 0x15 | 0x1F01 | 0x1F02 => {
            let value = random.any() >> random.pick(&[0, 1, 30, 57, 60]);
            put_leb128(random, out, value, 10);
        }
        0x08 => {
            out.extend(random.bytes(4).iter().filter(|b| **b != 0));
            out.push(0);
        }
        _ => {}
    }
}

/// A count of so many bytes, 0 for LEB128, and as many bytes.
fn put_block(random: &mut Random, encoding: Encoding, width: usize, out: &mut Vec<u8>) {
    let block = random.bytes(5);
    match width {
        0 => put_leb128(random, out, block.len() as u64, 10),
        _ => put(out, block.len() as u64, width, encoding.big),
    }
    out.extend(block);
}

/// A signed LEB128 number; in ten bytes the last one must be all sign.
fn put_signed(random: &mut Random, out: &mut Vec<u8>) {
    let length = random.pick(&[1, 2, 9, 10]);
    for _ in 1..length {
        out.push(random.any() as u8 | 0x80);
    }
    out.push(if length == 10 { random.pick(&[0, 0x7F]) } else { random.any() as u8 & 0x7F });
}

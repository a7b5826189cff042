//! Good bundles: objects of one encoding, with units, strings and shared sections.

use super::inputs::{push_index, Table};
use super::parts::{Abbrev, Part};
use super::pieces::Pieces;
use super::random::Random;
use crate::reference::put;
use crate::reference::Encoding;
use std::collections::{BTreeSet, HashSet};

/// A bundle before it is written.
#[derive(Clone, Debug)]
pub struct Draft {
    pub big: bool,
    pub objects: Vec<DraftObject>,
}

#[derive(Clone, Debug)]
pub struct DraftObject {
    pub word: u32,
    pub sections: Vec<(u32, Vec<u8>)>,
}

impl Draft {
    pub fn bytes(&self) -> Vec<u8> {
        let mut out = (0xF000_0000 | u32::from(self.big)).to_le_bytes().to_vec();
        for object in &self.objects {
            out.extend(object.word.to_le_bytes());
            for (code, bytes) in &object.sections {
                out.extend((2 << 28 | code << 23 | bytes.len() as u32).to_le_bytes());
                out.extend(bytes);
                out.resize(out.len().next_multiple_of(4), 0);
            }
        }
        let words = out.len() as u32 / 4 + 1;
        out.extend((3 << 28 | words).to_le_bytes());
        out
    }
}

/// A unit as it was put into a section.
#[derive(Clone, Copy, Debug)]
pub struct Placed {
    pub identity: u64,
    pub at: usize,
    pub size: usize,
    /// Not a type that an earlier unit has.
    pub kept: bool,
    /// The part of abbrev in which its table is read, where it has one.
    pub abbrev: Option<Part>,
    /// Its part of str_offsets, where that must be one of several.
    pub strings: Option<Part>,
}

/// What all objects of a bundle have in common, and the identities used so far.
pub struct Shared {
    pub encoding: Encoding,
    compilations: HashSet<u64>,
    /// In order, since one is picked.
    types: BTreeSet<u64>,
}

pub fn good(random: &mut Random) -> Draft {
    let big = random.one_in(3);
    let version = random.pick(&[4, 5]);
    let width = random.pick(&[4, 4, 8]);
    let address = random.pick(&[4, 8]);
    let word = 1 << 28 | version | width << 8 | address << 16;
    let mut shared = Shared { encoding: Encoding::of(big, word), compilations: HashSet::new(), types: BTreeSet::new() };
    let count = random.pick(&[0, 1, 1, 1, 2, 2, 3, 5]);
    let sections = |random: &mut Random, shared: &mut Shared| match version {
        5 if random.one_in(2) => package5(random, shared),
        5 => version5(random, shared),
        _ => version4(random, shared),
    };
    let objects = (0..count).map(|_| DraftObject { word, sections: sections(random, &mut shared) }).collect();
    Draft { big, objects }
}

/// Identities that meet in the slots, and some that don't.
fn identity(random: &mut Random) -> u64 {
    let low = match random.below(4) {
        0 => random.below(8),
        1 => random.below(4) * 16,
        2 => random.any() & 0xFFFF_FFFF,
        _ => 1,
    };
    let high = if random.one_in(2) { 0 } else { random.any() >> random.pick(&[32, 40, 60]) };
    (high << 32 | low).max(1)
}

impl Shared {
    fn new_compilation(&mut self, random: &mut Random) -> u64 {
        loop {
            let x = identity(random);
            if self.compilations.insert(x) {
                return x;
            }
        }
    }

    /// A type's signature, and whether it is new.
    fn any_type(&mut self, random: &mut Random) -> (u64, bool) {
        let x = identity(random);
        (x, self.types.insert(x))
    }

    /// A signature that was used already.
    fn known_type(&self, random: &mut Random) -> Option<u64> {
        let count = self.types.len() as u64;
        (count > 0).then(|| self.types.iter().nth(random.below(count) as usize).copied()).flatten()
    }

    fn put(&self, out: &mut Vec<u8>, value: u64, width: usize) {
        put(out, value, width, self.encoding.big);
    }

    /// A unit: its length in front of what is given.
    fn put_unit(&self, out: &mut Vec<u8>, unit: &[u8]) {
        if self.encoding.width == 8 {
            self.put(out, 0xFFFF_FFFF, 4);
        }
        self.put(out, unit.len() as u64, self.encoding.width);
        out.extend(unit);
    }
}

fn version5(random: &mut Random, shared: &mut Shared) -> Vec<(u32, Vec<u8>)> {
    let mut sections = Vec::new();
    for _ in 0..random.pick(&[1, 1, 1, 2]) {
        let mut info = Vec::new();
        for _ in 0..random.pick(&[0, 1, 1, 2, 3, 6]) {
            let kind = random.pick(&[4, 5, 5, 2, 6, 6]);
            unit5(random, shared, kind, &mut info);
        }
        sections.push((1, info));
    }
    sections.push((3, random.bytes(9)));
    others(random, &[4, 8, 9, 10], &mut sections);
    if let Some((strings, has_entries)) = some_strings(random) {
        sections.extend(has_entries.then(|| (6, str_offsets(random, shared, &strings))));
        sections.push((11, strings));
    }
    random.shuffle(&mut sections);
    sections
}

/// Unit types 2 and 6.
fn is_type(kind: u8) -> bool {
    kind == 2 || kind == 6
}

fn unit5(random: &mut Random, shared: &mut Shared, kind: u8, out: &mut Vec<u8>) -> Placed {
    let (identity, kept) = if is_type(kind) { shared.any_type(random) } else { (shared.new_compilation(random), true) };
    put_unit5(random, shared, (kind, identity), kept, out)
}

fn put_unit5(random: &mut Random, shared: &Shared, of: (u8, u64), kept: bool, out: &mut Vec<u8>) -> Placed {
    let (kind, identity) = of;
    let mut unit = Vec::new();
    shared.put(&mut unit, 5, 2);
    unit.push(kind);
    unit.push(shared.encoding.address as u8);
    shared.put(&mut unit, random.below(9), shared.encoding.width);
    shared.put(&mut unit, identity, 8);
    if is_type(kind) {
        shared.put(&mut unit, random.below(99), shared.encoding.width);
    }
    unit.extend(random.bytes(6));
    placed(shared, out, &unit, identity, kept)
}

/// The units of a package: those of a table without an index are types that were kept before. `indexes` has bit 0 for cu_index, bit 1 for
/// tu_index.
fn units_of_package5(random: &mut Random, shared: &mut Shared, indexes: u64, info: &mut Vec<u8>) -> [Vec<Placed>; 2] {
    let mut units = [Vec::new(), Vec::new()];
    for _ in 0..random.pick(&[0, 1, 1, 2, 3, 6]) {
        let kind = match indexes {
            1 if random.one_in(4) => random.pick(&[2, 6]),
            1 => random.pick(&[4, 5]),
            2 => random.pick(&[2, 6]),
            _ => random.pick(&[4, 5, 5, 2, 6, 6]),
        };
        if indexes == 1 && is_type(kind) {
            let Some(known) = shared.known_type(random) else { continue };
            put_unit5(random, shared, (kind, known), false, info);
            continue;
        }
        units[usize::from(is_type(kind))].push(unit5(random, shared, kind, info));
    }
    units
}

/// An object with one index or both: its units of both tables stand in info, and its str_offsets is in parts.
fn package5(random: &mut Random, shared: &mut Shared) -> Vec<(u32, Vec<u8>)> {
    let indexes = random.pick(&[1, 2, 3, 3]);
    let (mut info, mut pieces) = (Vec::new(), Pieces::none());
    let mut units = units_of_package5(random, shared, indexes, &mut info);
    let mut sections = vec![(1, info), (3, random.bytes(9))];
    others(random, &[4, 8, 9, 10], &mut sections);
    if let Some((strings, has_entries)) = some_strings(random) {
        if has_entries {
            pieces = Pieces::any(random, shared, &strings);
            sections.push((6, pieces.bytes.clone()));
        }
        sections.push((11, strings));
    }
    units.iter_mut().for_each(|units| pieces.give(random, units));
    let left = pieces.left(units.iter().flatten().filter(|unit| unit.kept));
    // One index says where the parts lie that no unit has.
    let says = if indexes == 3 { random.between(1, 2) } else { indexes };
    for (bit, code, units) in [(1, 12, &units[0]), (2, 13, &units[1])] {
        let left = if says == bit { &left[..] } else { &[] };
        if indexes & bit > 0 {
            push_index(random, shared.encoding, Table { code, units, pieces: Some(&pieces), left }, &mut sections);
        }
    }
    random.shuffle(&mut sections);
    sections
}

fn version4(random: &mut Random, shared: &mut Shared) -> Vec<(u32, Vec<u8>)> {
    let mut sections = Vec::new();
    let (mut in_info, mut in_types) = (Vec::new(), Vec::new());
    let input = if random.one_in(2) { random.between(1, 3) } else { 0 };
    let infos = if input & 1 == 1 { 1 } else { random.pick(&[1, 1, 2]) };
    let counts: Vec<usize> = (0..infos).map(|_| random.pick(&[0, 1, 1, 2, 3, 6])).collect();
    let abbrev = if input & 1 == 1 { Abbrev::in_parts(random, counts[0]) } else { Abbrev::whole(random) };
    for count in counts {
        let mut info = Vec::new();
        for unit in 0..count {
            in_info.push(compilation4(random, shared, (&abbrev, unit), &mut info));
        }
        sections.push((1, info));
    }
    let types = if input & 2 == 2 { 1 } else { random.pick(&[0, 0, 1, 2]) };
    for _ in 0..types {
        let mut section = Vec::new();
        for _ in 0..random.pick(&[0, 1, 1, 2, 4]) {
            in_types.push(type4(random, shared, &mut section));
        }
        sections.push((2, section));
    }
    sections.push((3, abbrev.bytes));
    others(random, &[4, 5, 7, 8], &mut sections);
    if let Some((strings, has_entries)) = some_strings(random) {
        sections.extend(has_entries.then(|| (6, str_offsets(random, shared, &strings))));
        sections.push((11, strings));
    }
    for (bit, code, units) in [(1, 12, &in_info), (2, 13, &in_types)] {
        if input & bit == bit {
            push_index(random, shared.encoding, Table { code, units, pieces: None, left: &[] }, &mut sections);
        }
    }
    random.shuffle(&mut sections);
    sections
}

/// The unit of a number, whose table is in abbrev.
fn compilation4(random: &mut Random, shared: &mut Shared, from: (&Abbrev, usize), out: &mut Vec<u8>) -> Placed {
    let (abbrev, number) = from;
    let reading = abbrev.reading(random, number);
    let identity = shared.new_compilation(random);
    let mut unit = Vec::new();
    shared.put(&mut unit, 4, 2);
    shared.put(&mut unit, reading.offset as u64, shared.encoding.width);
    unit.push(shared.encoding.address as u8);
    reading.root.put_entry(random, shared.encoding, identity, &mut unit);
    unit.extend(random.bytes(5));
    Placed { abbrev: reading.part, ..placed(shared, out, &unit, identity, true) }
}

fn type4(random: &mut Random, shared: &mut Shared, out: &mut Vec<u8>) -> Placed {
    let (identity, kept) = shared.any_type(random);
    let mut unit = Vec::new();
    shared.put(&mut unit, 4, 2);
    shared.put(&mut unit, random.below(9), shared.encoding.width);
    unit.push(shared.encoding.address as u8);
    shared.put(&mut unit, identity, 8);
    shared.put(&mut unit, random.below(99), shared.encoding.width);
    unit.extend(random.bytes(5));
    placed(shared, out, &unit, identity, kept)
}

fn placed(shared: &Shared, out: &mut Vec<u8>, unit: &[u8], identity: u64, kept: bool) -> Placed {
    let at = out.len();
    shared.put_unit(out, unit);
    Placed { identity, at, size: out.len() - at, kept, abbrev: None, strings: None }
}

/// Sections that may be there or not.
fn others(random: &mut Random, codes: &[u32], sections: &mut Vec<(u32, Vec<u8>)>) {
    for code in codes {
        if random.one_in(2) {
            sections.push((*code, random.bytes(20)));
        }
    }
}

/// Strings most often, and whether str_offsets is there too.
fn some_strings(random: &mut Random) -> Option<(Vec<u8>, bool)> {
    if random.one_in(4) {
        return None;
    }
    let strings = any_strings(random);
    Some((strings, !random.one_in(6)))
}

/// Strings that end with a zero byte, some equal, some empty; now and then bytes behind the last zero.
fn any_strings(random: &mut Random) -> Vec<u8> {
    let mut strings = Vec::new();
    for _ in 0..random.pick(&[0, 1, 2, 4, 8]) {
        let length = random.below(6);
        strings.extend((0..length).map(|_| random.pick(b"abc\xFF")));
        strings.push(0);
    }
    if random.one_in(5) {
        strings.extend(b"rest");
    }
    strings
}

/// Entries into strings, also into their middle and twice.
pub fn str_offsets(random: &mut Random, shared: &Shared, strings: &[u8]) -> Vec<u8> {
    let width = shared.encoding.width;
    let reach = strings.iter().rposition(|b| *b == 0).map_or(0, |last| last as u64 + 1);
    let count = if reach == 0 { 0 } else { random.pick(&[0, 1, 3, 5, 9]) };
    let mut out = Vec::new();
    if shared.encoding.version == 5 {
        let rest = 4 + count * width as u64;
        if width == 8 {
            shared.put(&mut out, 0xFFFF_FFFF, 4);
        }
        shared.put(&mut out, rest, width);
        shared.put(&mut out, 5, 2);
        shared.put(&mut out, 0, 2);
    }
    for _ in 0..count {
        shared.put(&mut out, random.below(reach), width);
    }
    out
}

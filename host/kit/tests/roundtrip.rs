//! The theorem of the reference: what an accepted bundle hands in is what the lookups find in its package, and nothing else.

use kit::generate::{good, Random};
use kit::reference::{
    header_size, lookup, lookup_string, number, pack, read_unit, string_at, work_for, Bundle, Encoding, Found, Index,
    Object, Packed, Probe, Table, Unit,
};
use std::collections::HashSet;

/// A package, and the version and number of the table that are asked for.
struct Asked<'a> {
    package: &'a [u8],
    version: u32,
    table: u32,
    identity: u64,
}

impl Asked<'_> {
    fn bytes(&self, found: Found) -> &[u8] {
        let Found::Part { start, length, looks } = found else { panic!("{found:?}") };
        assert!(looks > 0);
        &self.package[start..start + length]
    }

    fn part(&self, code: u32) -> &[u8] {
        self.bytes(lookup(self.package, self.version, self.table, self.identity, code))
    }

    fn string(&self, entry: u64) -> Found {
        lookup_string(self.package, self.version, self.table, self.identity, entry)
    }
}

/// The part of an object's section that a kept unit contributes: its row's, or all of it without an index.
fn contribution<'a>(object: &Object<'a>, index: Option<&Index>, identity: u64, code: u32) -> &'a [u8] {
    let bytes = object.bytes(code);
    let Some(index) = index.filter(|_| !bytes.is_empty()) else { return bytes };
    let Probe::Row(row, _) = index.probe(identity) else { panic!("no row") };
    let (offset, size) = index.cell(row, code).expect("a column");
    &bytes[offset as usize..(offset + size) as usize]
}

/// The abbreviations of a compilation unit at a place of info.
fn abbrev<'a>(object: &Object<'a>, encoding: Encoding, at: usize, size: usize) -> &'a [u8] {
    let whole = object.bytes(3);
    let index = object.section(12).and_then(|s| Index::read(s.bytes, encoding.big));
    let Some(index) = index.filter(|_| !whole.is_empty()) else { return whole };
    let row = index.row_at(1, at, size).expect("a row that names the place");
    let (offset, size) = index.cell(row, 3).expect("a column");
    &whole[offset as usize..(offset + size) as usize]
}

fn check_unit(asked: &Asked, object: &Object, encoding: Encoding, section: u32, bytes: &[u8], index: Option<&Index>) {
    assert_eq!(asked.part(section), bytes);
    assert!(asked.part(3 - section).is_empty());
    for code in 3..=10 {
        let wanted = contribution(object, index, asked.identity, code);
        assert_eq!(asked.part(code).len(), wanted.len());
        assert!(code == 6 || asked.part(code) == wanted);
    }
    let part = contribution(object, index, asked.identity, 6);
    let entries = part.get(header_size(encoding.version, encoding.width)..).unwrap_or(&[]).chunks(encoding.width);
    let count = entries.len() as u64;
    for (k, entry) in entries.enumerate() {
        let offset = number(entry, 0, encoding.width, encoding.big).expect("a whole entry");
        let string = string_at(object.bytes(11), offset).expect("a string");
        assert_eq!(asked.bytes(asked.string(k as u64)), string);
    }
    assert_eq!(asked.string(count), Found::Refused(25));
    let other = lookup(asked.package, 7 - asked.version, asked.table, asked.identity, section);
    assert_eq!(other, Found::Refused(22));
}

/// Every unit of a section; the first of each identity is the kept one.
fn check_section(
    package: &[u8],
    object: &Object,
    encoding: Encoding,
    section: u32,
    bytes: &[u8],
    seen: &mut HashSet<(Table, u64)>,
) {
    let version = if encoding.version == 5 { 5 } else { 2 };
    let mut at = 0;
    while at < bytes.len() {
        let unit: Unit =
            read_unit(section, &bytes[at..], |size| Ok(abbrev(object, encoding, at, size)), encoding).expect("a unit");
        let table = if unit.table == Table::Compilation { 1 } else { 2 };
        let index = object.section(11 + table).and_then(|s| Index::read(s.bytes, encoding.big));
        let asked = Asked { package, version, table, identity: unit.identity };
        if seen.insert((unit.table, unit.identity)) {
            check_unit(&asked, object, encoding, section, &bytes[at..at + unit.size], index.as_ref());
        }
        at += unit.size;
    }
}

#[test]
fn what_is_handed_in_is_found() {
    let mut random = Random::new(4);
    for _ in 0..5_000 {
        let bytes = good(&mut random).bytes();
        let Packed::Made(package) = pack(&bytes, work_for(&bytes), 1 << 20) else { panic!("not accepted") };
        let bundle = Bundle::read(&bytes).expect("a bundle");
        let mut seen = HashSet::new();
        for object in &bundle.objects {
            let encoding = Encoding::of(bundle.big, object.word);
            for section in object.sections.iter().filter(|s| s.code <= 2) {
                check_section(&package, object, encoding, section.code, section.bytes, &mut seen);
            }
        }
        for _ in 0..10 {
            check_absent(&mut random, &package, &seen);
        }
    }
}

/// An identity that was not handed in is absent.
fn check_absent(random: &mut Random, package: &[u8], seen: &HashSet<(Table, u64)>) {
    let identity = random.any() >> random.pick(&[0, 32, 61, 63]);
    let table = random.pick(&[Table::Compilation, Table::Type]);
    if seen.contains(&(table, identity)) {
        return;
    }
    let version = if package.get(4) == Some(&5) { 5 } else { 2 };
    let number = if table == Table::Compilation { 1 } else { 2 };
    let found = lookup(package, version, number, identity, 1);
    assert!(matches!(found, Found::Absent(_)), "{found:?}");
}

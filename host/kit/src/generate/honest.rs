//! Large bundles as compilers make them: identities that look random, bodies of usual length. Each kind has one thing many times.

use super::objects::{Draft, DraftObject};
use crate::reference::{pack, work_for, Packed};

const FOUR: u32 = 0x1008_0404;
const FIVE: u32 = 0x1008_0405;
/// Bytes of a unit behind its header and root.
const BODY: usize = 60;

/// A kind of bundle: of what it has many, and a bundle with so many of them.
pub struct Kind {
    pub name: &'static str,
    pub items: &'static str,
    pub make: fn(u64) -> Vec<u8>,
}

pub const KINDS: [Kind; 12] = [
    Kind { name: "few units, version 5", items: "bytes of line", make: few_units },
    Kind { name: "many units, version 5", items: "units", make: units_of_five },
    Kind { name: "many units, version 4, one abbreviation table", items: "units", make: units_with_one_table },
    Kind {
        name: "many units, version 4, one table of 100 declarations",
        items: "units",
        make: units_with_a_long_table,
    },
    Kind { name: "many units, version 4, a table each", items: "units", make: units_with_a_table_each },
    Kind { name: "many type units, each signature twice", items: "units", make: types_twice },
    Kind { name: "many info sections of one unit", items: "sections", make: info_sections },
    Kind { name: "many objects, the same few strings in each", items: "objects", make: many_objects },
    Kind { name: "a package of version 4 as input", items: "units", make: package_again },
    Kind { name: "a package of version 5 as input", items: "units", make: package_of_five_again },
    Kind { name: "many entries, 16 strings", items: "entries", make: entries_of_few_strings },
    Kind { name: "many names with common prefixes", items: "strings", make: names_with_prefixes },
];

/// A bundle of a kind that is at most so long, and less by a hundredth at most where that can be had; and its items.
pub fn sized(kind: &Kind, length: usize) -> (Vec<u8>, u64) {
    let (mut bundle, mut count, mut next) = (Vec::new(), 0, 64);
    for _ in 0..20 {
        let tried = (kind.make)(next);
        let made = tried.len();
        if made <= length && made > bundle.len() {
            (bundle, count) = (tried, next);
        }
        if bundle.len() * 100 >= length * 99 {
            break;
        }
        next = (next * length as u64 * 399 / 400 / made as u64).max(1);
    }
    (bundle, count)
}

fn identity(number: u64) -> u64 {
    (number + 1).wrapping_mul(0x9E37_79B9_7F4A_7C15)
}

/// Bytes without meaning, but not all the same.
fn body(number: u64, length: usize) -> impl Iterator<Item = u8> {
    (0..length as u64).map(move |i| (identity(number + i / 8) >> (i % 8 * 8)) as u8)
}

fn one_object(word: u32, sections: Vec<(u32, Vec<u8>)>) -> Vec<u8> {
    Draft { big: false, objects: vec![DraftObject { word, sections }] }.bytes()
}

/// A unit: its length in front of what is given.
fn put_unit(out: &mut Vec<u8>, unit: &[u8]) {
    out.extend((unit.len() as u32).to_le_bytes());
    out.extend(unit);
}

fn put_five(out: &mut Vec<u8>, kind: u8, identity: u64, length: usize) {
    let mut unit = vec![5, 0, kind, 8, 0, 0, 0, 0];
    unit.extend(identity.to_le_bytes());
    if kind == 6 {
        unit.extend([24, 0, 0, 0]);
    }
    unit.extend(body(identity, length));
    put_unit(out, &unit);
}

fn put_four(out: &mut Vec<u8>, table: usize, identity: u64) {
    let mut unit = vec![4, 0];
    unit.extend((table as u32).to_le_bytes());
    // Address size, code 1, two string indexes, a language, the identity.
    unit.extend([8, 1, 0, 1, 12, 0]);
    unit.extend(identity.to_le_bytes());
    unit.extend(body(identity, BODY));
    put_unit(out, &unit);
}

/// The root's declaration, with its identity as the last attribute, and so many others.
fn put_table(out: &mut Vec<u8>, others: u8) {
    out.extend([1, 0x11, 1, 0x25, 0x82, 0x3E, 0xB0, 0x42, 0x82, 0x3E, 0x13, 0x05, 0xB1, 0x42, 0x07, 0, 0]);
    for code in 2..2 + others {
        out.extend([code, 0x2E, 0, 0x03, 0x82, 0x3E, 0x3A, 0x0B, 0x49, 0x13, 0, 0]);
    }
    out.push(0);
}

fn table(others: u8) -> Vec<u8> {
    let mut out = Vec::new();
    put_table(&mut out, others);
    out
}

/// Entries of version 5 or 4, of width 4.
fn str_offsets(word: u32, entries: impl ExactSizeIterator<Item = u32>) -> Vec<u8> {
    let mut out = Vec::new();
    if word == FIVE {
        out.extend((4 + 4 * entries.len() as u32).to_le_bytes());
        out.extend([5, 0, 0, 0]);
    }
    out.extend(entries.flat_map(u32::to_le_bytes));
    out
}

/// So many different strings of 16 letters, each with its zero.
fn strings(count: u64) -> Vec<u8> {
    (0..count).flat_map(|i| format!("{:016x}\0", identity(i)).into_bytes()).collect()
}

fn few_units(line: u64) -> Vec<u8> {
    let mut info = Vec::new();
    (0..8).for_each(|i| put_five(&mut info, 5, identity(i), BODY));
    one_object(FIVE, vec![(1, info), (3, table(11)), (4, body(0, line as usize).collect())])
}

fn units_of_five(count: u64) -> Vec<u8> {
    let mut info = Vec::new();
    (0..count).for_each(|i| put_five(&mut info, 5, identity(i), BODY));
    one_object(FIVE, vec![(1, info), (3, table(11))])
}

fn units_over_one_table(count: u64, table: Vec<u8>) -> Vec<u8> {
    let mut info = Vec::new();
    (0..count).for_each(|i| put_four(&mut info, 0, identity(i)));
    one_object(FOUR, vec![(1, info), (3, table)])
}

fn units_with_one_table(count: u64) -> Vec<u8> {
    units_over_one_table(count, table(11))
}

fn units_with_a_long_table(count: u64) -> Vec<u8> {
    units_over_one_table(count, table(99))
}

fn units_with_a_table_each(count: u64) -> Vec<u8> {
    let (mut info, mut abbrev) = (Vec::new(), Vec::new());
    for i in 0..count {
        put_four(&mut info, abbrev.len(), identity(i));
        put_table(&mut abbrev, 3);
    }
    one_object(FOUR, vec![(1, info), (3, abbrev)])
}

fn types_twice(count: u64) -> Vec<u8> {
    let mut info = Vec::new();
    let first = count.div_ceil(2);
    (0..count).for_each(|i| put_five(&mut info, 6, identity(i % first), BODY));
    one_object(FIVE, vec![(1, info), (3, table(11))])
}

fn info_sections(count: u64) -> Vec<u8> {
    let section = |i| {
        let mut info = Vec::new();
        put_five(&mut info, 5, identity(i), BODY);
        (1, info)
    };
    let mut sections: Vec<_> = (0..count).map(section).collect();
    sections.push((3, table(11)));
    one_object(FIVE, sections)
}

fn many_objects(count: u64) -> Vec<u8> {
    let texts = strings(5);
    let object = |i: u64| {
        let mut info = Vec::new();
        put_five(&mut info, 5, identity(i), BODY);
        let entries = str_offsets(FIVE, (0..5).map(|k| k * 17));
        let line = body(i, 40).collect();
        DraftObject {
            word: FIVE,
            sections: vec![(1, info), (3, table(3)), (4, line), (6, entries), (11, texts.clone())],
        }
    };
    Draft { big: false, objects: (0..count).map(object).collect() }.bytes()
}

/// The package of so many objects of one unit: its rows are in step.
fn package_again(count: u64) -> Vec<u8> {
    let object = |i: u64| {
        let mut info = Vec::new();
        put_four(&mut info, 0, identity(i));
        DraftObject { word: FOUR, sections: vec![(1, info), (3, table(3)), (4, body(i, 40).collect())] }
    };
    package_of((0..count).map(object).collect())
}

/// The same of version 5: its str_offsets has a part for each unit, of one entry.
fn package_of_five_again(count: u64) -> Vec<u8> {
    let object = |i: u64| {
        let mut info = Vec::new();
        put_five(&mut info, 5, identity(i), BODY);
        // The objects together must not be longer than their package, so that the limit is the package's.
        let (line, text) = (body(i, 28).collect(), format!("{:016x}\0", identity(i % 4)).into_bytes());
        let entries = str_offsets(FIVE, [0].into_iter());
        DraftObject { word: FIVE, sections: vec![(1, info), (3, table(3)), (4, line), (6, entries), (11, text)] }
    };
    package_of((0..count).map(object).collect())
}

/// The package of a bundle of objects.
fn package_of(objects: Vec<DraftObject>) -> Vec<u8> {
    let bundle = Draft { big: false, objects }.bytes();
    match pack(&bundle, work_for(&bundle), usize::MAX) {
        Packed::Made(package) => package,
        // Only a bundle above the limit; it is long enough to be seen as too long.
        _ => bundle,
    }
}

fn entries_of_few_strings(count: u64) -> Vec<u8> {
    let entries = (0..count).map(|i| (identity(i) >> 60) as u32 * 17).collect::<Vec<_>>();
    with_strings(entries, 16)
}

/// Names as C++ compilers mangle them: namespaces, class and template arguments are common to many, and what differs stands late.
fn mangled(number: u64) -> String {
    let (class, method) = (number / 40, number % 40);
    let class = format!("Archive{}", class % 2_500);
    let arguments = "NSt7__cxx1112basic_stringIcSt11char_traitsIcESaIcEEE";
    let method = format!("lookup_entry_{method}_{:x}", identity(number) >> 52);
    format!("_ZN4race6splits6detail{}{class}I{arguments}E{}{method}ERK{arguments}m\0", class.len(), method.len())
}

/// So many names, each new and named once.
fn names_with_prefixes(count: u64) -> Vec<u8> {
    let (mut entries, mut strings) = (Vec::new(), Vec::new());
    for i in 0..count {
        entries.push(strings.len() as u32);
        strings.extend(mangled(i).into_bytes());
    }
    naming(entries, strings)
}

/// So many different strings, and entries for the last of them after one for each.
pub fn last_of_many_strings(strings: u64, entries: u64) -> Vec<u8> {
    let last = strings as u32 - 1;
    with_strings((0..last).chain((0..entries).map(|_| last)).map(|i| i * 17).collect(), strings)
}

/// So many different strings, each named once.
pub fn many_strings(count: u64) -> Vec<u8> {
    with_strings((0..count as u32).map(|i| i * 17).collect(), count)
}

/// What the hash of the kept strings' index makes of eight bytes more: `mixed` of `crates/strings/specs/Indexed.antt`.
fn mixed(hash: u64, bytes: &[u8]) -> u64 {
    let bytes = bytes.iter().rev().fold(0, |number, byte| number << 8 | u64::from(*byte));
    let product = (hash + bytes % (1 << 32)) * 798_746_317 + (bytes >> 32) * 982_451_653;
    ((product >> 32) + product) % (1 << 32)
}

/// So many different strings of one hash, each named once: so many bytes that all share, a multiple of eight, then eight that differ and eight that make
/// up for the difference. Strings whose last bytes would hold a zero are left out.
fn of_one_hash(shared: usize, count: u64) -> Vec<u8> {
    let front = vec![b'a'; shared];
    let before = front.chunks(8).fold(0, mixed);
    let string = |i: u64| {
        let differ = std::array::from_fn::<u8, 8, _>(|k| b'a' + (i / 26_u64.pow(k as u32) % 26) as u8);
        let rest = (u64::from(u32::MAX) - mixed(before, &differ)) as u32;
        let rest = rest.to_le_bytes();
        (!rest.contains(&0)).then(|| [&front[..], &differ, &rest, b"same\0"].concat())
    };
    let strings = (0..).filter_map(string).take(count as usize).flatten().collect();
    naming((0..count as u32).map(|i| i * (shared as u32 + 17)).collect(), strings)
}

/// They part by their first bits.
pub fn strings_of_one_hash(count: u64) -> Vec<u8> {
    of_one_hash(0, count)
}

/// They part after 3,840 bits.
pub fn long_strings_of_one_hash(count: u64) -> Vec<u8> {
    of_one_hash(480, count)
}

fn with_strings(entries: Vec<u32>, count: u64) -> Vec<u8> {
    naming(entries, strings(count))
}

/// One unit, and entries for strings.
fn naming(entries: Vec<u32>, strings: Vec<u8>) -> Vec<u8> {
    let mut info = Vec::new();
    put_five(&mut info, 5, identity(0), BODY);
    let offsets = str_offsets(FIVE, entries.into_iter());
    one_object(FIVE, vec![(1, info), (3, table(3)), (6, offsets), (11, strings)])
}

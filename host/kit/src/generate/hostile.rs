//! Bundles that would be long at work: each kind has as much as its length allows of what some search or reading takes for each of many.

use super::honest::{long_strings_of_one_hash, strings_of_one_hash, Kind};
use super::large::{suffixes, units_of};
use super::objects::{Draft, DraftObject};
use super::rows::{one_probe_sequence, reversed_rows, rows_beside_one_place, rows_of_one_place, used_slots};
use super::rows::{pieces_of_one_place, reversed_pieces, rows_of_one_piece};
use super::tables::{
    deep_tables_anywhere, deep_tables_near_the_front, descending_codes, many_attributes, many_identities,
    many_long_attributes, many_runs, many_tables, offsets_of_one_run, one_long_declaration, one_long_table,
    one_table_in_parts, short_runs, tables_that_join_one_run, three_tables_in_each_other, two_tables,
};

const FIVE: u32 = 0x1008_0405;

/// A hostile kind, and the number of packing's answer.
pub struct Hostile {
    pub kind: Kind,
    pub answer: u32,
    /// Whether thorin takes the bundle as we do, so that its time is a measure.
    pub thorin: bool,
}

const fn kind(name: &'static str, items: &'static str, make: fn(u64) -> Vec<u8>) -> Hostile {
    Hostile { kind: Kind { name, items, make }, answer: 0, thorin: true }
}

const fn refused(answer: u32, hostile: Hostile) -> Hostile {
    Hostile { answer, thorin: false, ..hostile }
}

/// Of packages whose rows are out of step thorin isn't the measure.
const fn alone(hostile: Hostile) -> Hostile {
    Hostile { thorin: false, ..hostile }
}

/// The length at which each kind has a time of its own: a bundle so short once took no end.
pub const SHORT: usize = 28 << 10;

pub const HOSTILE: [Hostile; 30] = [
    kind("units at different offsets of one run of declarations", "units", offsets_of_one_run),
    kind("units at different offsets of one run, codes whose low bits are zero", "units", deep_tables_anywhere),
    kind(
        "eight tables near the front of one run in turns, codes whose low bits are zero",
        "units",
        deep_tables_near_the_front,
    ),
    kind("three tables that lie in each other in turns", "units", three_tables_in_each_other),
    kind("ten tables that start inside a padded code and join one run, in turns", "units", tables_that_join_one_run),
    kind("tables at 400 places in front of one declaration of very many attributes", "units", one_long_declaration),
    kind("units that take turns with two long tables", "units", two_tables),
    kind("units that take turns with tables that together have no room", "units", many_tables),
    alone(kind(
        "a package as input, parts of abbrev that start with one long table and differ in length",
        "units",
        one_table_in_parts,
    )),
    kind("units over one long table, the root's declaration last", "units", one_long_table),
    kind("units whose root has very many attributes of no width", "units", many_attributes),
    kind(
        "units whose root has very many attributes of no width, their names of two bytes",
        "units",
        many_long_attributes,
    ),
    kind("units whose root names 2131 very often without a width, behind the identity", "units", many_identities),
    kind("units whose root has many runs of attributes of no width", "units", many_runs),
    kind("units whose root has a hundred runs of 63 attributes of no width", "units", short_runs),
    kind("one table, its codes descending", "declarations", descending_codes),
    kind("identities of one probe sequence", "units", colliding_units),
    alone(kind("a package as input, identities of one probe sequence", "units", colliding_rows)),
    alone(kind("a package as input, all slots used, each unit met late", "units", used_slots_of)),
    kind("different strings of one hash", "strings", strings_of_one_hash),
    kind("different strings of one hash, the same in their first 480 bytes", "strings", long_strings_of_one_hash),
    kind("entries that name one long string", "entries", one_long_string),
    kind("suffixes of one string, the same in each object", "objects", suffixes_in_objects),
    refused(19, kind("entries to every suffix of one string", "entries", every_suffix)),
    refused(15, kind("all rows name the one unit's place", "rows", one_place)),
    alone(kind("all rows but the last start at the one unit's place and are longer", "rows", beside_one_place)),
    alone(kind("rows in the reverse order of their units, four units for five rows", "rows", reversed)),
    alone(kind("version 5, all rows name the one part of str_offsets", "rows", one_piece)),
    alone(kind("version 5, rows in the reverse order of their parts of str_offsets", "rows", in_reverse)),
    refused(34, kind("version 5, all parts of str_offsets start at 0 and differ", "rows", pieces_at_zero)),
];

fn one_object(word: u32, sections: Vec<(u32, Vec<u8>)>) -> Vec<u8> {
    Draft { big: false, objects: vec![DraftObject { word, sections }] }.bytes()
}

/// Identities that differ only where no mask of a table that fits into a bundle looks.
pub fn colliding(number: u64) -> u64 {
    (number >> 12) << 52 | 1 << 32 | (number & 0xFFF) << 20 | 1
}

fn colliding_units(units: u64) -> Vec<u8> {
    units_of((0..units).map(colliding))
}

fn colliding_rows(units: u64) -> Vec<u8> {
    one_probe_sequence(units as u32)
}

fn used_slots_of(units: u64) -> Vec<u8> {
    used_slots(units as u32)
}

fn str_offsets(entries: impl ExactSizeIterator<Item = u32>) -> Vec<u8> {
    let mut out = (4 + 4 * entries.len() as u32).to_le_bytes().to_vec();
    out.extend([5, 0, 0, 0]);
    out.extend(entries.flat_map(u32::to_le_bytes));
    out
}

fn unit_of_five(number: u64) -> Vec<u8> {
    let mut unit = vec![16, 0, 0, 0, 5, 0, 5, 8, 0, 0, 0, 0];
    unit.extend((number + 1).to_le_bytes());
    unit
}

/// A string that takes as many bytes as the entries.
fn one_long_string(entries: u64) -> Vec<u8> {
    let mut strings = vec![b'a'; 4 * entries as usize];
    strings.push(0);
    let offsets = str_offsets((0..entries as u32).map(|_| 0));
    one_object(FIVE, vec![(1, unit_of_five(0)), (3, vec![0]), (6, offsets), (11, strings)])
}

/// Together the suffixes are just short enough for a package, and an object is as short as it can be with so many bytes of strings.
const LETTERS: usize = 5_793;
const SUFFIXES: u32 = 1_448;

fn suffixes_in_objects(objects: u64) -> Vec<u8> {
    let mut strings = vec![b'a'; LETTERS];
    strings.push(0);
    let object = |i: u64| {
        let sections = vec![(1, unit_of_five(i)), (3, vec![0]), (6, str_offsets(0..SUFFIXES)), (11, strings.clone())];
        DraftObject { word: FIVE, sections }
    };
    Draft { big: false, objects: (0..objects).map(object).collect() }.bytes()
}

fn every_suffix(letters: u64) -> Vec<u8> {
    suffixes(letters as u32)
}

fn one_place(rows: u64) -> Vec<u8> {
    rows_of_one_place(rows as u32)
}

fn beside_one_place(rows: u64) -> Vec<u8> {
    rows_beside_one_place(rows as u32)
}

fn reversed(rows: u64) -> Vec<u8> {
    reversed_rows(rows as u32)
}

fn one_piece(rows: u64) -> Vec<u8> {
    rows_of_one_piece(rows as u32)
}

fn in_reverse(rows: u64) -> Vec<u8> {
    reversed_pieces(rows as u32)
}

fn pieces_at_zero(rows: u64) -> Vec<u8> {
    pieces_of_one_place(rows as u32)
}

//! Hostile bundles of version 4 by their abbreviation tables and roots: each unit costs what its own bytes don't show, unless what was read for one
//! serves the next.

use super::objects::{Draft, DraftObject};
use super::rows::rows_of_one_table;

/// Version 4, offset width 4, address size 8.
const FOUR: u32 = 0x1008_0404;

fn of_version_four(info: Vec<u8>, abbrev: Vec<u8>) -> Vec<u8> {
    let object = DraftObject { word: FOUR, sections: vec![(1, info), (3, abbrev)] };
    Draft { big: false, objects: vec![object] }.bytes()
}

fn put_unsigned(out: &mut Vec<u8>, number: u64) {
    let mut rest = number;
    while rest > 0x7F {
        out.push(rest as u8 | 0x80);
        rest >>= 7;
    }
    out.push(rest as u8);
}

/// A declaration without attributes.
fn put_empty(out: &mut Vec<u8>, code: u64) {
    put_unsigned(out, code);
    out.extend([0x2E, 0, 0, 0]);
}

/// An attribute of no width, with a name of one byte or two.
const FLAG: [u8; 2] = [0x3F, 0x19];
const LONG_FLAG: [u8; 3] = [0xBF, 0x01, 0x19];

/// The declaration of a root that states its identity behind other attributes.
fn put_root(out: &mut Vec<u8>, code: u64, others: &[u8]) {
    put_unsigned(out, code);
    out.extend([0x11, 0]);
    out.extend(others);
    out.extend([0xB1, 0x42, 7, 0, 0]);
}

/// A table of so many declarations with rising codes, the root's last.
fn put_table(out: &mut Vec<u8>, declarations: u64) {
    (1..declarations).for_each(|code| put_empty(out, code));
    put_root(out, declarations, &[]);
    out.push(0);
}

/// A unit of version 4 by its table's offset and its root's code, and so many bytes behind its identity.
fn put_unit_with(out: &mut Vec<u8>, (table, code): (usize, u64), number: u64, behind: &[u8]) {
    let mut unit = vec![4, 0];
    unit.extend((table as u32).to_le_bytes());
    unit.push(8);
    put_unsigned(&mut unit, code);
    unit.extend((number + 1).wrapping_mul(0x9E37_79B9_7F4A_7C15).to_le_bytes());
    unit.extend(behind);
    out.extend((unit.len() as u32).to_le_bytes());
    out.extend(unit);
}

fn put_unit(out: &mut Vec<u8>, table: usize, code: u64, number: u64) {
    put_unit_with(out, (table, code), number, &[]);
}

/// So many units, each by the offset of its table and its root's code.
fn units_with(abbrev: Vec<u8>, units: impl Iterator<Item = (usize, u64)>) -> Vec<u8> {
    let mut info = Vec::new();
    units.enumerate().for_each(|(i, (table, code))| put_unit(&mut info, table, code, i as u64));
    of_version_four(info, abbrev)
}

/// A declaration takes about a quarter of a unit's bytes: half of the bundle are units.
const FOR_A_UNIT: u64 = 4;

pub fn offsets_of_one_run(units: u64) -> Vec<u8> {
    let mut abbrev = Vec::new();
    let mut places = Vec::new();
    let declarations = FOR_A_UNIT * units;
    for code in 1..declarations {
        places.push(abbrev.len());
        put_empty(&mut abbrev, code);
    }
    put_root(&mut abbrev, declarations, &[]);
    abbrev.push(0);
    units_with(abbrev, places.into_iter().take(units as usize).map(|place| (place, declarations)))
}

pub fn two_tables(units: u64) -> Vec<u8> {
    let declarations = (FOR_A_UNIT * units / 2).max(1);
    let mut abbrev = Vec::new();
    put_table(&mut abbrev, declarations);
    let second = abbrev.len();
    put_table(&mut abbrev, declarations);
    units_with(abbrev, (0..units as usize).map(|i| (i % 2 * second, declarations)))
}

/// A declaration whose code has two bytes takes six, and five words where it is remembered.
const FIRST_OF_TWO_BYTES: u64 = 0x80;
const MOST_OF_TWO_BYTES: u64 = 0x3F00;
/// So many for each unit are nearly all of the bundle.
const MANY_FOR_A_UNIT: u64 = 120;
const FEWEST_TABLES: u64 = 8;

/// At least eight tables, each as long as codes of two bytes let it be. The root's declaration is the first.
pub fn many_tables(units: u64) -> Vec<u8> {
    let all = MANY_FOR_A_UNIT * units;
    let tables = FEWEST_TABLES.max(all.div_ceil(MOST_OF_TWO_BYTES));
    let mut abbrev = Vec::new();
    let mut places = Vec::new();
    for _ in 0..tables {
        places.push(abbrev.len());
        put_root(&mut abbrev, 1, &[]);
        (0..all / tables).for_each(|i| put_empty(&mut abbrev, FIRST_OF_TWO_BYTES + i));
        abbrev.push(0);
    }
    units_with(abbrev, (0..units as usize).map(|i| (places[i % places.len()], 1)))
}

/// The root's declaration is the first.
pub fn one_table_in_parts(units: u64) -> Vec<u8> {
    let mut table = Vec::new();
    put_root(&mut table, 1, &[]);
    (2..FOR_A_UNIT * units).for_each(|code| put_empty(&mut table, code));
    table.push(0);
    rows_of_one_table(units as u32, &table)
}

pub fn one_long_table(units: u64) -> Vec<u8> {
    let declarations = FOR_A_UNIT * units;
    let mut abbrev = Vec::new();
    put_table(&mut abbrev, declarations);
    units_with(abbrev, (0..units).map(|_| (0, declarations)))
}

/// The attributes take as many bytes as the units.
fn units_of_one_root(units: u64, attributes: &[u8]) -> Vec<u8> {
    let mut abbrev = Vec::new();
    put_root(&mut abbrev, 1, attributes);
    abbrev.push(0);
    units_with(abbrev, (0..units).map(|_| (0, 1)))
}

pub fn many_attributes(units: u64) -> Vec<u8> {
    units_of_one_root(units, &FLAG.repeat(10 * units as usize))
}

pub fn many_long_attributes(units: u64) -> Vec<u8> {
    units_of_one_root(units, &LONG_FLAG.repeat(7 * units as usize))
}

/// 2131 as a flag that is present.
const IDENTITY_FLAG: [u8; 3] = [0xB1, 0x42, 0x19];

pub fn many_identities(units: u64) -> Vec<u8> {
    let mut abbrev = vec![1, 0x11, 0, 0xB1, 0x42, 7];
    abbrev.extend(IDENTITY_FLAG.repeat(7 * units as usize));
    abbrev.extend([0, 0, 0]);
    units_with(abbrev, (0..units).map(|_| (0, 1)))
}

/// An attribute of one byte.
const BYTE: [u8; 2] = [0x3F, 0x0B];
/// As many runs as the unit has bytes for them.
const RUNS: usize = 40;

pub fn many_runs(units: u64) -> Vec<u8> {
    let run = [&BYTE[..], &LONG_FLAG.repeat(units as usize / 2)].concat();
    let mut abbrev = vec![1, 0x11, 0, 0xB1, 0x42, 7];
    abbrev.extend(run.repeat(RUNS));
    abbrev.extend([0, 0, 0]);
    let mut info = Vec::new();
    (0..units).for_each(|i| put_unit_with(&mut info, (0, 1), i, &[0; RUNS]));
    of_version_four(info, abbrev)
}

pub fn descending_codes(declarations: u64) -> Vec<u8> {
    let mut abbrev = Vec::new();
    (2..=declarations).rev().for_each(|code| put_empty(&mut abbrev, code));
    put_root(&mut abbrev, 1, &[]);
    abbrev.push(0);
    units_with(abbrev, [(0, 1)].into_iter())
}

/// A unit's bytes where its root's code has one byte, and those of a declaration without attributes whose code has nine.
const UNIT: u64 = 20;
const DEEP_DECLARATION: u64 = 13;

/// So many declarations whose codes differ in the highest of 63 bits alone, then the root's, by code 1; where each starts.
fn put_deep_run(abbrev: &mut Vec<u8>, declarations: u64) -> Vec<usize> {
    let shift = 63 - (u64::BITS - declarations.leading_zeros());
    let mut places = Vec::new();
    for i in 1..=declarations {
        places.push(abbrev.len());
        put_empty(abbrev, i << shift);
    }
    put_root(abbrev, 1, &[]);
    abbrev.push(0);
    places
}

/// Half of the bundle are declarations.
fn deep_run_for(units: u64) -> (Vec<u8>, Vec<usize>) {
    let mut abbrev = Vec::new();
    let places = put_deep_run(&mut abbrev, units * UNIT / DEEP_DECLARATION + FRONT as u64);
    (abbrev, places)
}

/// So many tables near the front of a run take turns.
const FRONT: usize = 8;

pub fn deep_tables_near_the_front(units: u64) -> Vec<u8> {
    let (abbrev, places) = deep_run_for(units);
    units_with(abbrev, (0..units as usize).map(|i| (places[i % FRONT], 1)))
}

pub fn deep_tables_anywhere(units: u64) -> Vec<u8> {
    let (abbrev, places) = deep_run_for(units);
    units_with(abbrev, (0..units as usize).map(|i| (places[i % places.len()], 1)))
}

/// Three tables, each but the first a suffix of the one before it.
pub fn three_tables_in_each_other(units: u64) -> Vec<u8> {
    let declarations = FOR_A_UNIT * units + 3;
    let mut abbrev = Vec::new();
    let mut places = Vec::new();
    for code in 1..declarations {
        places.push(abbrev.len());
        put_empty(&mut abbrev, code);
    }
    put_root(&mut abbrev, declarations, &[]);
    abbrev.push(0);
    units_with(abbrev, (0..units as usize).map(|i| (places[i % 3], declarations)))
}

/// The code of ten bytes that is 2 to the 63: from each of its bytes on, another power of two is read, and then the same run.
const PADDED: [u8; 10] = [0x80, 0x80, 0x80, 0x80, 0x80, 0x80, 0x80, 0x80, 0x80, 1];
/// Codes that are no power of two of those.
const FIRST_OF_THE_RUN: u64 = 3;

pub fn tables_that_join_one_run(units: u64) -> Vec<u8> {
    let mut abbrev = PADDED.to_vec();
    abbrev.extend([0x2E, 0, 0, 0]);
    // Each power of two that a table starts with is left out of the run.
    let codes = (FIRST_OF_THE_RUN..).filter(|code| !code.is_power_of_two());
    codes.take((FOR_A_UNIT * units) as usize).for_each(|code| put_empty(&mut abbrev, code));
    put_root(&mut abbrev, 2, &[]);
    abbrev.push(0);
    units_with(abbrev, (0..units as usize).map(|i| (i % PADDED.len(), 2)))
}

/// So many tables, each a declaration longer than the next, in front of one declaration of very many attributes.
const PLACES: u64 = 400;

pub fn one_long_declaration(units: u64) -> Vec<u8> {
    let mut abbrev = Vec::new();
    let mut places = Vec::new();
    for code in 3..3 + PLACES.min(units) {
        places.push(abbrev.len());
        put_empty(&mut abbrev, code);
    }
    put_unsigned(&mut abbrev, 1);
    abbrev.extend([0x2E, 0]);
    abbrev.extend(FLAG.repeat(10 * units as usize));
    abbrev.extend([0, 0]);
    put_root(&mut abbrev, 2, &[]);
    abbrev.push(0);
    units_with(abbrev, (0..units as usize).map(|i| (places[i % places.len()], 2)))
}

/// Runs of attributes without a width that are one attribute shorter than what is remembered, each behind an attribute of one byte.
const SHORT_RUN: usize = 63;
const SHORT_RUNS: usize = 100;

pub fn short_runs(units: u64) -> Vec<u8> {
    let run = [&BYTE[..], &FLAG.repeat(SHORT_RUN)].concat();
    let mut abbrev = vec![1, 0x11, 0, 0xB1, 0x42, 7];
    abbrev.extend(run.repeat(SHORT_RUNS));
    abbrev.extend([0, 0, 0]);
    let mut info = Vec::new();
    (0..units).for_each(|i| put_unit_with(&mut info, (0, 1), i, &[0; SHORT_RUNS]));
    of_version_four(info, abbrev)
}

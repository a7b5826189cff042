//! Packages with very many rows, which a search of all rows for each unit, or for each part of str_offsets, would take too long to read.

use super::hostile::colliding;
use super::objects::{Draft, DraftObject};
use crate::reference::place;

/// Version 4, offset width 4, address size 8; and the same of version 5.
const WORD: u32 = 0x1008_0404;
const FIVE: u32 = 0x1008_0405;
/// A part of str_offsets in version 5 that has no entry.
const PIECE: [u8; 8] = [4, 0, 0, 0, 5, 0, 0, 0];
/// A unit that is its header and a root of one attribute, the identity.
const UNIT: u32 = 20;
/// Code 1, tag 11, no children, attribute 2131 of form data8.
const ABBREV: [u8; 9] = [1, 0x11, 0, 0xB1, 0x42, 7, 0, 0, 0];

fn identity(number: u32) -> u64 {
    (u64::from(number) + 1).wrapping_mul(0x9E37_79B9_7F4A_7C15)
}

fn put_unit(info: &mut Vec<u8>, identity: u64) {
    info.extend([16, 0, 0, 0, 4, 0, 0, 0, 0, 0, 8, 1]);
    info.extend(identity.to_le_bytes());
}

/// Offset and size.
type Cell = (u32, u32);

/// The slots of rows, as their identities choose them.
fn slots_of<C>(rows: &[(u64, C)]) -> Vec<u64> {
    let identities: Vec<u64> = rows.iter().map(|(identity, _)| *identity).collect();
    place(&identities, slot_count(rows)).expect("a slot for each")
}

fn slot_count<T>(rows: &[T]) -> usize {
    (rows.len() + 1).next_power_of_two()
}

/// An index of two columns, by its form, their codes, its rows' identities and cells, and its slots.
fn index(form: u32, codes: [u32; 2], rows: &[(u64, [Cell; 2])], slots: &[u64]) -> Vec<u8> {
    let mut out = Vec::new();
    let mut put = |word: u32| out.extend(word.to_le_bytes());
    // A 16-bit 5 and 0 are the word 5 in this byte order.
    [form, 2, rows.len() as u32, slots.len() as u32].into_iter().for_each(&mut put);
    for row in slots {
        let x = row.checked_sub(1).map_or(0, |row| rows[row as usize].0);
        put(x as u32);
        put((x >> 32) as u32);
    }
    slots.iter().for_each(|row| put(*row as u32));
    codes.into_iter().for_each(&mut put);
    rows.iter().flat_map(|(_, cells)| cells.map(|(offset, _)| offset)).for_each(&mut put);
    rows.iter().flat_map(|(_, cells)| cells.map(|(_, size)| size)).for_each(&mut put);
    out
}

/// So many units, in order of their identities' numbers, and rows of these info cells.
fn package(units: u32, rows: &[(u64, Cell)]) -> Vec<u8> {
    placed_package((0..units).map(identity), rows, &slots_of(rows))
}

/// The same by the units' identities and with the rows' slots; all rows share one abbrev part.
fn placed_package(units: impl Iterator<Item = u64>, rows: &[(u64, Cell)], slots: &[u64]) -> Vec<u8> {
    let rows: Vec<_> = rows.iter().map(|(identity, cell)| (*identity, [*cell, (0, ABBREV.len() as u32)])).collect();
    package_of(units, ABBREV.to_vec(), &rows, slots)
}

/// The same with the rows' info and abbrev cells.
fn package_of(units: impl Iterator<Item = u64>, abbrev: Vec<u8>, rows: &[(u64, [Cell; 2])], slots: &[u64]) -> Vec<u8> {
    let mut info = Vec::new();
    units.for_each(|identity| put_unit(&mut info, identity));
    let sections = vec![(1, info), (3, abbrev), (12, index(2, [1, 3], rows, slots))];
    Draft { big: false, objects: vec![DraftObject { word: WORD, sections }] }.bytes()
}

/// So many units and rows; each row's abbrev part starts with the one table of abbrev, and all are of different lengths.
pub fn rows_of_one_table(units: u32, table: &[u8]) -> Vec<u8> {
    let size = table.len() as u32;
    let rows: Vec<_> = (0..units).map(|i| (identity(i), [(i * UNIT, UNIT), (0, size + i)])).collect();
    let mut abbrev = table.to_vec();
    abbrev.resize((size + units) as usize, 0);
    package_of((0..units).map(identity), abbrev, &rows, &slots_of(&rows))
}

/// One unit, and so many rows that all name its place (15).
pub fn rows_of_one_place(rows: u32) -> Vec<u8> {
    let rows: Vec<_> = (0..rows).map(|i| (identity(i), (0, UNIT))).collect();
    package(1, &rows)
}

/// One unit, and so many rows of which the last names its place, the others a place that starts there and is longer.
pub fn rows_beside_one_place(rows: u32) -> Vec<u8> {
    let size = |i: u32| if i == 0 { UNIT } else { UNIT + 1 };
    let rows: Vec<_> = (0..rows).rev().map(|i| (identity(i), (0, size(i)))).collect();
    package(1, &rows)
}

/// So many rows in the reverse order of their places, and units at the first four fifths of these.
pub fn reversed_rows(rows: u32) -> Vec<u8> {
    let all: Vec<_> = (0..rows).rev().map(|i| (identity(i), (i * UNIT, UNIT))).collect();
    package(rows / 5 * 4, &all)
}

/// So many units, and a row for each, whose identities all start at one slot and take the same steps.
pub fn one_probe_sequence(units: u32) -> Vec<u8> {
    let rows: Vec<_> = (0..units).map(|i| (colliding(i.into()), (i * UNIT, UNIT))).collect();
    // A search for each slot would meet all those before it.
    let mut slots = vec![0; slot_count(&rows)];
    let (mask, step) = (slots.len() - 1, colliding(0) >> 32 | 1);
    (0..rows.len()).for_each(|i| slots[(colliding(0) as usize + i * step as usize) & mask] = i as u64 + 1);
    placed_package(rows.iter().map(|(identity, _)| *identity), &rows, &slots)
}

/// So many units, whose rows have the last slots of their one probe sequence. All other slots of at least twice as many are used too: they name
/// the first row again.
pub fn used_slots(units: u32) -> Vec<u8> {
    let rows: Vec<_> = (0..units).map(|i| (colliding(i.into()), (i * UNIT, UNIT))).collect();
    let mut slots = vec![1; (2 * rows.len() + 1).next_power_of_two()];
    let (mask, step) = (slots.len() - 1, colliding(0) >> 32 | 1);
    let first = slots.len() - rows.len();
    (1..rows.len()).for_each(|i| slots[(colliding(0) as usize + (first + i) * step as usize) & mask] = i as u64 + 1);
    placed_package(rows.iter().map(|(identity, _)| *identity), &rows, &slots)
}

/// A version 5 package of one unit, of so many parts of str_offsets without entries, and of rows that name these cells of it.
fn package_of_pieces(pieces: u32, cells: impl Iterator<Item = Cell>) -> Vec<u8> {
    let mut unit = vec![16, 0, 0, 0, 5, 0, 5, 8, 0, 0, 0, 0];
    unit.extend(identity(0).to_le_bytes());
    let rows: Vec<_> = (0..).zip(cells).map(|(i, cell)| (identity(i), [(0, UNIT), cell])).collect();
    let (offsets, index) = (PIECE.repeat(pieces as usize), index(5, [1, 6], &rows, &slots_of(&rows)));
    let sections = vec![(1, unit), (3, Vec::new()), (6, offsets), (11, vec![0]), (12, index)];
    Draft { big: false, objects: vec![DraftObject { word: FIVE, sections }] }.bytes()
}

const PIECE_SIZE: u32 = PIECE.len() as u32;

/// So many rows that all name the one part.
pub fn rows_of_one_piece(rows: u32) -> Vec<u8> {
    package_of_pieces(1, (0..rows).map(|_| (0, PIECE_SIZE)))
}

/// So many rows in the reverse order of their parts.
pub fn reversed_pieces(rows: u32) -> Vec<u8> {
    package_of_pieces(rows, (0..rows).rev().map(|i| (i * PIECE_SIZE, PIECE_SIZE)))
}

/// So many rows whose parts all start at 0 and are all different (34).
pub fn pieces_of_one_place(rows: u32) -> Vec<u8> {
    package_of_pieces(rows, (1..=rows).map(|i| (0, i * PIECE_SIZE)))
}

//! Indexes of both forms: read, searched, and written.

use super::bytes::{number, put};

/// An index as it was read; rows count from 1.
#[derive(Clone, Debug)]
pub struct Index {
    pub version: u32,
    pub columns: Vec<u64>,
    pub units: u64,
    pub identities: Vec<u64>,
    pub rows: Vec<u64>,
    /// Offset and size, row by row, column by column.
    pub cells: Vec<(u64, u64)>,
}

#[derive(Clone, Copy, Debug, PartialEq, Eq)]
pub enum Probe {
    Row(u64, usize),
    Absent(usize),
}

/// Section code and column code, in the order of the columns.
pub fn column_codes(version: u32) -> &'static [(u32, u64)] {
    match version {
        2 => &[(1, 1), (2, 2), (3, 3), (4, 4), (5, 5), (6, 6), (7, 7), (8, 8)],
        _ => &[(1, 1), (3, 3), (4, 4), (9, 5), (10, 8), (6, 6), (8, 7)],
    }
}

/// The form that an index's start names.
fn version_named(bytes: &[u8], big: bool) -> Option<u32> {
    if number(bytes, 0, 4, big)? == 2 {
        return Some(2);
    }
    (number(bytes, 0, 2, big)? == 5 && number(bytes, 2, 2, big)? == 0).then_some(5)
}

fn distinct(codes: &[u64]) -> bool {
    codes.iter().enumerate().all(|(i, c)| !codes[..i].contains(c))
}

impl Index {
    /// None where it is ill-formed.
    pub fn read(bytes: &[u8], big: bool) -> Option<Index> {
        let version = version_named(bytes, big)?;
        let field = |at| number(bytes, at, 4, big);
        let (columns, units, slots) = (field(4)?, field(8)?, field(12)?);
        let known = column_codes(version);
        if columns > known.len() as u64 || slots <= units || !slots.is_power_of_two() {
            return None;
        }
        // At most 2^31 slots and 8 columns: far below 64 bits.
        if bytes.len() as u64 != 16 + 12 * slots + 4 * columns + 8 * units * columns {
            return None;
        }
        let index = Index::take_apart(bytes, big, version, columns as usize, units as usize, slots as usize)?;
        let codes_good = index.columns.iter().all(|c| known.iter().any(|(_, k)| k == c)) && distinct(&index.columns);
        let pairs = index.rows.iter().zip(&index.identities);
        let slots_good = pairs.clone().all(|(row, identity)| *row <= units && (*row == 0) == (*identity == 0));
        (codes_good && slots_good).then_some(index)
    }

    /// Of an index that is as long as its counts say.
    fn take_apart(bytes: &[u8], big: bool, version: u32, columns: usize, units: usize, slots: usize) -> Option<Index> {
        let list = |at: usize, width: usize, count: usize| -> Option<Vec<u64>> {
            (0..count).map(|i| number(bytes, at + i * width, width, big)).collect()
        };
        let (rows_at, codes_at) = (16 + 8 * slots, 16 + 12 * slots);
        let (offsets_at, sizes_at) = (codes_at + 4 * columns, codes_at + 4 * columns + 4 * units * columns);
        let offsets = list(offsets_at, 4, units * columns)?;
        let sizes = list(sizes_at, 4, units * columns)?;
        Some(Index {
            version,
            columns: list(codes_at, 4, columns)?,
            units: units as u64,
            identities: list(16, 8, slots)?,
            rows: list(rows_at, 4, slots)?,
            cells: offsets.into_iter().zip(sizes).collect(),
        })
    }

    /// Where the probing for an identity ends.
    pub fn probe(&self, identity: u64) -> Probe {
        let slots = self.rows.len();
        for (looked, slot) in probing(identity, slots).enumerate() {
            if self.rows[slot] == 0 {
                return Probe::Absent(looked + 1);
            }
            if self.identities[slot] == identity {
                return Probe::Row(self.rows[slot], looked + 1);
            }
        }
        Probe::Absent(slots)
    }

    /// Offset and size of a section in a row; none where there is no such column.
    pub fn cell(&self, row: u64, section: u32) -> Option<(u64, u64)> {
        let (_, code) = column_codes(self.version).iter().find(|(s, _)| *s == section)?;
        let column = self.columns.iter().position(|c| c == code)?;
        Some(self.cells[(row as usize - 1) * self.columns.len() + column])
    }

    /// The row whose column of a section names a place, where exactly one does. Rows without a slot count too.
    pub fn row_at(&self, section: u32, at: usize, size: usize) -> Option<u64> {
        let place = Some((at as u64, size as u64));
        let mut rows = (1..=self.units).filter(|row| self.cell(*row, section) == place);
        let row = rows.next()?;
        rows.next().is_none().then_some(row)
    }
}

/// The slots in the order of probing, each step taken modulo the slots, as many as there are slots.
fn probing(identity: u64, slots: usize) -> impl Iterator<Item = usize> {
    let mask = slots as u64 - 1;
    let step = (identity >> 32 & mask) | 1;
    (0..slots as u64).map(move |i| (identity.wrapping_add(i.wrapping_mul(step)) & mask) as usize)
}

/// The least power of two whose double exceeds three times the units, never below 2.
pub fn slot_count(units: usize) -> usize {
    let mut slots = 2;
    while 2 * slots <= 3 * units {
        slots *= 2;
    }
    slots
}

/// The row number in each slot, 0 where it is unused; none where the slots are too few, which `slot_count` excludes.
pub fn place(identities: &[u64], slots: usize) -> Option<Vec<u64>> {
    let mut rows = vec![0; slots];
    for (i, identity) in identities.iter().enumerate() {
        let slot = probing(*identity, slots).find(|slot| rows[*slot] == 0)?;
        rows[slot] = i as u64 + 1;
    }
    Some(rows)
}

/// A unit to be written: its identity, and for each section code that it has a part of, offset and size.
#[derive(Clone, Debug)]
pub struct Row {
    pub identity: u64,
    pub parts: Vec<(u32, u64, u64)>,
}

impl Row {
    fn part(&self, section: u32) -> Option<(u64, u64)> {
        self.parts.iter().find(|p| p.0 == section).map(|p| (p.1, p.2))
    }
}

/// The index of one table, empty without units.
pub fn write(version: u32, rows: &[Row], big: bool) -> Vec<u8> {
    if rows.is_empty() {
        return Vec::new();
    }
    let identities: Vec<u64> = rows.iter().map(|r| r.identity).collect();
    let slots = place(&identities, slot_count(rows.len())).expect("slots exceed units");
    let mut columns = column_codes(version).to_vec();
    columns.retain(|(section, _)| rows.iter().any(|r| r.part(*section).is_some()));
    let mut out = Vec::new();
    match version {
        2 => put(&mut out, 2, 4, big),
        _ => [5, 0].into_iter().for_each(|v| put(&mut out, v, 2, big)),
    }
    for count in [columns.len(), rows.len(), slots.len()] {
        put(&mut out, count as u64, 4, big);
    }
    let identity_of = |row: &u64| if *row == 0 { 0 } else { identities[*row as usize - 1] };
    slots.iter().for_each(|row| put(&mut out, identity_of(row), 8, big));
    slots.iter().for_each(|row| put(&mut out, *row, 4, big));
    columns.iter().for_each(|(_, code)| put(&mut out, *code, 4, big));
    let cells = || rows.iter().flat_map(|r| columns.iter().map(|(section, _)| r.part(*section).unwrap_or((0, 0))));
    cells().for_each(|(offset, _)| put(&mut out, offset, 4, big));
    cells().for_each(|(_, size)| put(&mut out, size, 4, big));
    out
}

//! Indexes of both versions.

use super::number;
use crate::names::file_name;

/// Rows count from 1.
#[derive(Clone, Debug)]
pub struct Index {
    pub version: u32,
    /// The section codes of the columns.
    pub columns: Vec<u32>,
    /// Identity and row of each slot; row 0 where it is unused.
    pub slots: Vec<(u64, u32)>,
    pub units: usize,
    /// Offset and size, row by row, column by column.
    cells: Vec<(u64, u64)>,
}

/// Section code and column code of an index's version.
fn column_codes(version: u32) -> &'static [(u32, u64)] {
    match version {
        2 => &[(1, 1), (2, 2), (3, 3), (4, 4), (5, 5), (6, 6), (7, 7), (8, 8)],
        _ => &[(1, 1), (3, 3), (4, 4), (9, 5), (10, 8), (6, 6), (8, 7)],
    }
}

/// The version that an index's start names.
pub fn version_named(bytes: &[u8], big: bool) -> Option<u32> {
    match number(bytes, 0, 4, big)? {
        2 => Some(2),
        _ if number(bytes, 0, 2, big)? == 5 && number(bytes, 2, 2, big)? == 0 => Some(5),
        _ => None,
    }
}

/// What helps where an index has neither units nor slots; nothing of any other.
pub fn empty_index(code: u32, bytes: &[u8], big: bool) -> String {
    let counts = [8, 12].map(|at| number(bytes, at, 4, big));
    if counts != [Some(0), Some(0)] {
        return String::new();
    }
    let section = file_name(code);
    format!("; GNU dwp writes such an empty one: objcopy -R {section} FILE NEW takes it away, or pack the .dwo files themselves")
}

impl Index {
    /// The error says what is ill-formed.
    pub fn read(bytes: &[u8], big: bool) -> Result<Index, String> {
        let field = |at: usize, width: usize| number(bytes, at, width, big);
        let head = (field(4, 4), field(8, 4), field(12, 4));
        let (Some(columns), Some(units), Some(slots)) = head else {
            return Err(format!("{} bytes, fewer than its header's 16", bytes.len()));
        };
        let version = version_named(bytes, big).ok_or("it starts with neither version 2 nor version 5")?;
        let known = column_codes(version);
        if columns > known.len() as u64 {
            return Err(format!("{columns} columns; version {version} has at most {}", known.len()));
        }
        if slots <= units || !slots.is_power_of_two() {
            return Err(format!("{slots} slots for {units} units; slots are a power of two above the units"));
        }
        let wanted = 16 + 12 * slots + 4 * columns + 8 * units * columns;
        if bytes.len() as u64 != wanted {
            return Err(format!("{} bytes where its counts make {wanted}", bytes.len()));
        }
        let (columns, units, slots) = (columns as usize, units as usize, slots as usize);
        let (rows_at, codes_at) = (16 + 8 * slots, 16 + 12 * slots);
        let (offsets_at, sizes_at) = (codes_at + 4 * columns, codes_at + 4 * columns + 4 * units * columns);
        let value = |at: usize, width: usize| field(at, width).unwrap_or(0);
        let pair = |i: usize| (value(16 + 8 * i, 8), value(rows_at + 4 * i, 4) as u32);
        let cell = |i: usize| (value(offsets_at + 4 * i, 4), value(sizes_at + 4 * i, 4));
        let index = Index {
            version,
            columns: columns_of(known, (0..columns).map(|i| value(codes_at + 4 * i, 4)))?,
            slots: (0..slots).map(pair).collect(),
            units,
            cells: (0..units * columns).map(cell).collect(),
        };
        index.slots_are_good()?;
        Ok(index)
    }

    fn slots_are_good(&self) -> Result<(), String> {
        for (slot, (identity, row)) in self.slots.iter().enumerate() {
            if *row as usize > self.units {
                return Err(format!("slot {slot} names row {row} of {}", self.units));
            }
            if (*row == 0) != (*identity == 0) {
                return Err(format!("slot {slot} has row {row} and identity {identity:#x}; both are 0 or neither"));
            }
        }
        Ok(())
    }

    /// The row of an identity, where the search for it finds one.
    pub fn row(&self, identity: u64) -> Option<u32> {
        let mask = self.slots.len() as u64 - 1;
        let step = (identity >> 32 & mask) | 1;
        let slot = |i: u64| self.slots[(identity.wrapping_add(i.wrapping_mul(step)) & mask) as usize];
        let met = (0..=mask).map(slot).find(|(x, row)| *row == 0 || *x == identity)?;
        (met.1 != 0).then_some(met.1)
    }

    /// Offset and size in a row, by the column's number.
    pub fn cell(&self, row: u32, column: usize) -> (u64, u64) {
        self.cells[(row as usize - 1) * self.columns.len() + column]
    }

    /// The same by the section's code; none where there is no such column.
    pub fn part(&self, row: u32, section: u32) -> Option<(u64, u64)> {
        self.columns.iter().position(|code| *code == section).map(|column| self.cell(row, column))
    }
}

/// The section codes of columns, which are known and different.
fn columns_of(known: &[(u32, u64)], codes: impl Iterator<Item = u64>) -> Result<Vec<u32>, String> {
    let mut sections = Vec::new();
    for code in codes {
        let Some((section, _)) = known.iter().find(|(_, column)| *column == code) else {
            return Err(format!("a column of code {code}"));
        };
        if sections.contains(section) {
            return Err(format!("two columns of code {code}"));
        }
        sections.push(*section);
    }
    Ok(sections)
}

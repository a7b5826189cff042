//! Indexes of both versions. Most are in step, as thorin adds parts up; in others parts are shared, lie over each other, repeat and leave
//! gaps, but for those of str_offsets in version 5, which `pieces` gives. There are rows that no unit needs, with and without slots.

use super::objects::Placed;
use super::parts::Part;
use super::pieces::Pieces;
use super::random::Random;
use crate::reference::{column_codes, place, put, Encoding};

const CU_INDEX: u32 = 12;
const INFO: u32 = 1;
const TYPES: u32 = 2;
const ABBREV: u32 = 3;
const STR_OFFSETS: u32 = 6;

/// Offset and size.
type Cell = (u64, u64);

/// A row before it has a number; without an identity it has no slot.
#[derive(Clone)]
struct Row {
    identity: Option<u64>,
    cells: Vec<Cell>,
}

/// What an index is about.
pub struct Table<'u> {
    /// The section code of the index.
    pub code: u32,
    /// The units of its table, in the order of their section.
    pub units: &'u [Placed],
    /// The parts of str_offsets, in version 5.
    pub pieces: Option<&'u Pieces>,
    /// Those of them that no kept unit has and this index must name.
    pub left: &'u [Part],
}

/// An index before it is written.
struct Draft<'u> {
    home: u32,
    /// Section codes.
    columns: Vec<u32>,
    pieces: Option<&'u Pieces>,
    rows: Vec<Row>,
    /// Identity and row number.
    slots: Vec<(u64, u64)>,
}

/// The sections that rows speak of, with the least step in each.
struct Sections<'s> {
    encoding: Encoding,
    sections: &'s [(u32, Vec<u8>)],
}

impl Sections<'_> {
    fn length(&self, code: u32) -> u64 {
        self.sections.iter().find(|(c, _)| *c == code).map_or(0, |(_, b)| b.len() as u64)
    }

    fn step(&self, code: u32) -> u64 {
        if code == STR_OFFSETS {
            self.encoding.width as u64
        } else {
            1
        }
    }

    /// A part from a place on.
    fn part_from(&self, random: &mut Random, code: u32, from: u64) -> Cell {
        let step = self.step(code);
        (from, random.below((self.length(code) - from) / step + 1) * step)
    }

    /// A part anywhere.
    fn any_part(&self, random: &mut Random, code: u32) -> Cell {
        let step = self.step(code);
        let from = random.below(self.length(code) / step + 1) * step;
        self.part_from(random, code, from)
    }
}

/// The version of the indexes in an object of a version.
fn index_version(encoding: Encoding) -> u32 {
    if encoding.version == 5 {
        5
    } else {
        2
    }
}

/// Adds the index of the units of one table.
pub fn push_index(random: &mut Random, encoding: Encoding, table: Table, sections: &mut Vec<(u32, Vec<u8>)>) {
    let home = if table.code == CU_INDEX || encoding.version == 5 { INFO } else { TYPES };
    let columns = any_columns(random, home, encoding, &table, sections);
    let lengths = Sections { encoding, sections };
    let cells = if random.one_in(6) {
        anywhere(random, &columns, table.units, &lengths)
    } else {
        in_step(random, &columns, table.units, &lengths)
    };
    let rows = needed_rows(random, table.units, cells);
    let mut draft = Draft { home, columns, pieces: table.pieces, rows, slots: Vec::new() };
    table.left.iter().for_each(|part| draft.add_row_of(random, *part));
    draft.add_rows(random);
    draft.number_rows(random);
    let section = draft.write(encoding);
    sections.push((table.code, section));
}

/// The columns needed, and some that are not, in any order. In version 5 an index that no kept unit has a row in may lack them.
fn any_columns(
    random: &mut Random,
    home: u32,
    encoding: Encoding,
    table: &Table,
    sections: &[(u32, Vec<u8>)],
) -> Vec<u32> {
    let is_free = encoding.version == 5 && table.units.iter().all(|unit| !unit.kept) && random.one_in(2);
    let has = |code: u32| code > 2 && sections.iter().any(|(c, b)| *c == code && !b.is_empty());
    let needed = |code: u32| !is_free && (code == home || has(code)) || code == STR_OFFSETS && !table.left.is_empty();
    let known = column_codes(index_version(encoding)).iter().map(|(section, _)| *section);
    let mut columns: Vec<u32> = known.filter(|code| needed(*code) || random.one_in(8)).collect();
    if random.one_in(3) {
        random.shuffle(&mut columns);
    }
    columns
}

fn cell((offset, size): Part) -> Cell {
    (offset as u64, size as u64)
}

/// What a unit's row must say of a section, whatever the other rows say: its place, where its abbreviations are read, and its own entries.
fn fixed(unit: &Placed, code: u32) -> Option<Cell> {
    match code {
        INFO | TYPES => Some((unit.at as u64, unit.size as u64)),
        ABBREV => unit.abbrev.map(cell),
        STR_OFFSETS => unit.strings.map(cell),
        _ => None,
    }
}

/// A row for each unit: parts that follow those of the kept units before it.
fn in_step(random: &mut Random, columns: &[u32], units: &[Placed], lengths: &Sections) -> Vec<Vec<Cell>> {
    let mut sums = [0u64; 11];
    let mut row = |unit: &Placed| -> Vec<Cell> {
        let mut cell = |code: &u32| {
            fixed(unit, *code).unwrap_or_else(|| {
                let part = lengths.part_from(random, *code, sums[*code as usize]);
                if unit.kept {
                    sums[*code as usize] += part.1;
                }
                part
            })
        };
        columns.iter().map(&mut cell).collect()
    };
    units.iter().map(&mut row).collect()
}

/// A row for each unit: parts anywhere, some as in the row before, some of the whole section.
fn anywhere(random: &mut Random, columns: &[u32], units: &[Placed], lengths: &Sections) -> Vec<Vec<Cell>> {
    let mut before = [(0, 0); 11];
    let mut row = |unit: &Placed| -> Vec<Cell> {
        let mut cell = |code: &u32| {
            fixed(unit, *code).unwrap_or_else(|| {
                let part = match random.below(4) {
                    0 => before[*code as usize],
                    1 => (0, lengths.length(*code)),
                    _ => lengths.any_part(random, *code),
                };
                before[*code as usize] = part;
                part
            })
        };
        columns.iter().map(&mut cell).collect()
    };
    units.iter().map(&mut row).collect()
}

/// The rows of kept units, and now and then those of skipped ones.
fn needed_rows(random: &mut Random, units: &[Placed], cells: Vec<Vec<Cell>>) -> Vec<Row> {
    // A signature may stand twice among the units: one row is enough, and only the first unit may be a kept one.
    let is_first = |i: usize| units[..i].iter().all(|u| u.identity != units[i].identity);
    let mut rows = Vec::new();
    for (i, cells) in cells.into_iter().enumerate() {
        if is_first(i) && (units[i].kept || random.one_in(2)) {
            rows.push(Row { identity: Some(units[i].identity), cells });
        }
    }
    rows
}

impl Draft<'_> {
    /// Anything that a row may say which no unit needs.
    fn any_cells(&self, random: &mut Random) -> Vec<Cell> {
        let any = |code: &u32| match self.pieces {
            Some(pieces) if *code == STR_OFFSETS => cell(pieces.spare(random)),
            _ => (random.below(9), random.any() & 0xFFFF_FFFF),
        };
        self.columns.iter().map(any).collect()
    }

    /// A row that only names a part of str_offsets.
    fn add_row_of(&mut self, random: &mut Random, part: Part) {
        let mut cells = self.any_cells(random);
        if let Some(at) = self.columns.iter().position(|code| *code == STR_OFFSETS) {
            cells[at] = cell(part);
        }
        let identity = random.one_in(2).then(|| random.any() | 1 << 63);
        self.rows.push(Row { identity, cells });
    }

    /// Now and then up to three rows that no unit needs, and the rows in any order.
    fn add_rows(&mut self, random: &mut Random) {
        if random.one_in(5) {
            for _ in 0..random.between(1, 3) {
                let row = self.spare_row(random);
                self.rows.push(row);
            }
        }
        match random.below(4) {
            0 | 1 => {}
            2 => self.rows.reverse(),
            _ => random.shuffle(&mut self.rows),
        }
    }

    /// A row that says anything, or what another one says; but only one row may name a compilation unit's place.
    fn spare_row(&self, random: &mut Random) -> Row {
        let identity = random.one_in(2).then(|| random.any() | 1 << 63);
        if self.rows.is_empty() || random.one_in(2) {
            return Row { identity, cells: self.any_cells(random) };
        }
        let mut cells = random.pick(&self.rows).cells;
        let info = self.columns.iter().position(|code| *code == INFO);
        if let Some((_, size)) = info.filter(|_| self.home == INFO).map(|at| &mut cells[at]) {
            *size = (*size + 1) & 0xFFFF_FFFF;
        }
        Row { identity, cells }
    }

    /// Gives each identity a slot; now and then one has a second slot, which names another row and is never reached.
    fn number_rows(&mut self, random: &mut Random) {
        let count = (self.rows.len() + 1).next_power_of_two() << random.pick(&[0, 0, 1, 2]);
        let numbered = self.rows.iter().zip(1..).filter_map(|(row, number)| row.identity.map(|x| (x, number)));
        let mut filed: Vec<(u64, u64)> = numbered.collect();
        if !filed.is_empty() && filed.len() + 1 < count && random.one_in(12) {
            let (identity, _) = random.pick(&filed);
            filed.push((identity, random.between(1, self.rows.len() as u64)));
        }
        let identities: Vec<u64> = filed.iter().map(|(identity, _)| *identity).collect();
        let placed = place(&identities, count).expect("a slot for each");
        let slot = |nth: &u64| if *nth == 0 { (0, 0) } else { filed[*nth as usize - 1] };
        self.slots = placed.iter().map(slot).collect();
    }

    fn write(&self, encoding: Encoding) -> Vec<u8> {
        let (big, version) = (encoding.big, index_version(encoding));
        let mut out = Vec::new();
        match version {
            2 => put(&mut out, 2, 4, big),
            _ => [5, 0].into_iter().for_each(|half| put(&mut out, half, 2, big)),
        }
        for count in [self.columns.len(), self.rows.len(), self.slots.len()] {
            put(&mut out, count as u64, 4, big);
        }
        self.slots.iter().for_each(|(identity, _)| put(&mut out, *identity, 8, big));
        self.slots.iter().for_each(|(_, row)| put(&mut out, *row, 4, big));
        let codes = self.columns.iter().filter_map(|code| column_codes(version).iter().find(|(s, _)| s == code));
        codes.for_each(|(_, column)| put(&mut out, *column, 4, big));
        let cells = || self.rows.iter().flat_map(|row| &row.cells);
        cells().for_each(|(offset, _)| put(&mut out, *offset, 4, big));
        cells().for_each(|(_, size)| put(&mut out, *size, 4, big));
        out
    }
}

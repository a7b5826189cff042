//! The time of a sheet of 200,000 units, beside what it can be held to: one pass over its index, in two ways, the same text made by a plain
//! loop, and the text copied.

use super::lookups;
use super::measure::shortest;
use barthovin::sheet;
use kit::clock;
use std::hint::black_box;
use std::io::{Error, Result};
use std::time::{Duration, Instant};

/// The lengths of the package and of its sheet, and the times.
pub struct Sheet {
    pub package: usize,
    pub sheet: usize,
    pub took: Duration,
    /// One pass over the index as it is stored, and one by the slots, each used one with its row's cells.
    pub stored: Duration,
    pub by_slots: Duration,
    /// The same text by a plain loop, and copied.
    pub plain: Duration,
    pub copied: Duration,
}

/// A little-endian index of one column. Places count in words.
struct Words<'a> {
    bytes: &'a [u8],
    units: usize,
    slots: usize,
}

impl Words<'_> {
    fn read(bytes: &[u8]) -> Words<'_> {
        let mut words = Words { bytes, units: 0, slots: 0 };
        (words.units, words.slots) = (words.at(2) as usize, words.at(3) as usize);
        words
    }

    fn at(&self, place: usize) -> u32 {
        let word = &self.bytes[4 * place..4 * place + 4];
        u32::from_le_bytes([word[0], word[1], word[2], word[3]])
    }

    fn identity(&self, slot: usize) -> u64 {
        u64::from(self.at(4 + 2 * slot)) | u64::from(self.at(5 + 2 * slot)) << 32
    }

    fn row(&self, slot: usize) -> u32 {
        self.at(4 + 2 * self.slots + slot)
    }

    /// Offset and size of a row, counted from 0.
    fn cell(&self, row: usize) -> (u32, u32) {
        let first = 5 + 3 * self.slots;
        (self.at(first + row), self.at(first + self.units + row))
    }

    /// Every slot and every cell, one behind the other.
    #[inline(never)]
    fn pass(&self) -> u64 {
        let slots = (0..self.slots).map(|slot| self.identity(slot) ^ u64::from(self.row(slot)));
        let cells = (0..self.units).map(|row| self.cell(row)).map(|(offset, size)| u64::from(offset ^ size));
        slots.chain(cells).fold(0, u64::wrapping_add)
    }

    /// Every slot, and for each used one the cells of its row.
    #[inline(never)]
    fn pass_by_slots(&self) -> u64 {
        let used = (0..self.slots).filter(|slot| self.row(*slot) != 0);
        let read = |slot: usize| {
            let (offset, size) = self.cell(self.row(slot) as usize - 1);
            self.identity(slot) ^ u64::from(offset ^ size)
        };
        used.map(read).fold(0, u64::wrapping_add)
    }

    /// The sheet, digit by digit.
    #[inline(never)]
    fn lines(&self, page: &mut [u8]) {
        let digit = |n: u64| (48 + n + (n + 6) / 16 * 39) as u8;
        page.fill(0);
        for slot in (0..self.slots).filter(|slot| self.row(*slot) != 0) {
            let (row, identity) = (self.row(slot) as usize - 1, self.identity(slot));
            let (offset, size) = self.cell(row);
            let line = &mut page[sheet::LINE * row..sheet::LINE * (row + 1)];
            line[..2].copy_from_slice(b"C ");
            (0..16).for_each(|i| line[2 + i] = digit(identity >> (60 - 4 * i) & 15));
            line[18..22].copy_from_slice(b" 01 ");
            (0..8).for_each(|i| line[22 + i] = digit(u64::from(offset >> (28 - 4 * i) & 15)));
            line[30] = b' ';
            (0..8).for_each(|i| line[31 + i] = digit(u64::from(size >> (28 - 4 * i) & 15)));
            line[39] = b'\n';
        }
    }
}

/// The lesser of the clock's time and the processor's.
fn timed<T>(mut what: impl FnMut() -> T) -> Result<Duration> {
    shortest(|| {
        let (clock, start) = (Instant::now(), clock::thread());
        black_box(what());
        let end = clock::thread();
        let passed = clock.elapsed();
        Ok(clock::between(start, end).map_or(passed, |took| took.min(passed)))
    })
}

pub fn measured() -> Result<Sheet> {
    let (package, index) = (lookups::package(true), lookups::index());
    let words = Words::read(&index);
    let wanted = sheet::LINE * lookups::UNITS as usize;
    let (mut page, mut other) = (vec![0; wanted], vec![0; wanted]);
    if sheet::write(&package, &mut page) != (0, wanted) {
        return Err(Error::other("the sheet is refused"));
    }
    words.lines(&mut other);
    if page != other {
        return Err(Error::other("the plain loop's text is another"));
    }
    Ok(Sheet {
        package: package.len(),
        sheet: wanted,
        stored: timed(|| words.pass())?,
        by_slots: timed(|| words.pass_by_slots())?,
        plain: timed(|| words.lines(black_box(&mut other)))?,
        copied: timed(|| black_box(&mut other).copy_from_slice(&page))?,
        took: timed(|| sheet::write(&package, &mut page))?,
    })
}

impl Sheet {
    /// The rows of the paper's table.
    pub fn rows(&self) -> [(&'static str, Duration); 5] {
        [
            ("the sheet", self.took),
            ("one pass over the index as it is stored", self.stored),
            ("one pass by slots, each used one with its row's cells", self.by_slots),
            ("the same text by a plain loop in Rust", self.plain),
            ("the text copied", self.copied),
        ]
    }
}

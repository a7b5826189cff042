//! The sheet (FORMAT 9) in plain Rust: the index on a page, by the reference's reading of packages.

use crate::reference::{lookup, number, Bundle, Found, Index};

/// Section code of a column, by the index's version.
fn section(version: u32, column: u64) -> u32 {
    match (version, column) {
        (5, 5) => 9,
        (5, 7) => 8,
        (5, 8) => 10,
        (_, same) => same as u32,
    }
}

/// The lines of one table; none where a row has not exactly one slot.
fn lines(letter: char, bytes: &[u8], big: bool) -> Option<String> {
    let index = Index::read(bytes, big)?;
    let units = number(bytes, 8, 4, big)?;
    let mut out = String::new();
    for row in 1..=units {
        let mut slots = (0..index.rows.len()).filter(|slot| index.rows[*slot] == row);
        let (slot, None) = (slots.next()?, slots.next()) else { return None };
        for (i, column) in index.columns.iter().enumerate() {
            let (offset, size) = index.cells[(row as usize - 1) * index.columns.len() + i];
            let code = section(index.version, *column);
            out += &format!("{letter} {:016x} {code:02} {offset:08x} {size:08x}\n", index.identities[slot]);
        }
    }
    Some(out)
}

/// The sheet, or the refusal's number.
pub fn sheet(package: &[u8], page: usize) -> Result<Vec<u8>, u32> {
    if lookup(package, 5, 1, 1, 1) == Found::Refused(21) {
        return Err(21);
    }
    let Bundle { big, objects } = Bundle::read(package).ok_or(21u32)?;
    let mut out = String::new();
    for (code, letter) in [(12, 'C'), (13, 'T')] {
        if let Some(section) = objects.first().and_then(|o| o.section(code)) {
            out += &lines(letter, section.bytes, big).ok_or(21u32)?;
        }
    }
    if out.len() > page {
        return Err(35);
    }
    Ok(out.into_bytes())
}

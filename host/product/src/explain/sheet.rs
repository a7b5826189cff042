//! Why a sheet is refused.

use super::not_a_package;
use crate::names::table_name;
use crate::reader::package::Package;

/// Why 21 refuses a sheet: the same, or a row that has not exactly one slot.
pub fn not_a_sheet(bytes: &[u8]) -> Option<String> {
    let Ok(package) = Package::read(bytes) else { return not_a_package(bytes) };
    [1, 2].into_iter().find_map(|table| {
        let index = package.index(table)?;
        let mut slots = vec![0; index.units];
        index.slots.iter().filter(|(_, row)| *row > 0).for_each(|(_, row)| slots[*row as usize - 1] += 1);
        let (row, count) = slots.iter().enumerate().find(|(_, count)| **count != 1)?;
        Some(format!("row {} of {}_index has {count} slots, not one", row + 1, table_name(table)))
    })
}

//! Why a lookup is refused.

use crate::answer::Asked;
use crate::names::{section_name, table_name, STR, STR_OFFSETS};
use crate::reader::number;
use crate::reader::package::Package;

/// Why 21 refuses a file.
pub fn not_a_package(bytes: &[u8]) -> Option<String> {
    Package::read(bytes).err()
}

/// Why a lookup is refused by a number.
pub fn looking_up(bytes: &[u8], version: u32, table: u32, identity: u64, asked: Asked, refusal: u32) -> Option<String> {
    if refusal == 21 {
        return not_a_package(bytes);
    }
    let package = Package::read(bytes).ok()?;
    match (refusal, asked) {
        (22, _) if matches!(version, 2 | 5) => Some(format!("its index has version {}", package.version())),
        (22, _) => Some(format!("{version} was asked for")),
        (23, Asked::Section(code)) => Some(format!("table {table} and section {code} were asked for")),
        (23, Asked::Entry(_)) => Some(format!("table {table} was asked for")),
        (24, Asked::Section(code)) => outside(&package, table, identity, code),
        (24, Asked::Entry(_)) => outside(&package, table, identity, STR_OFFSETS),
        (25, _) => entries(&package, version, table, identity).map(|count| format!("it has {count}, counted from 0")),
        (26, Asked::Entry(entry)) => lost(&package, version, table, identity, entry),
        _ => None,
    }
}

/// The part that a row names.
fn part(package: &Package, table: u32, identity: u64, code: u32) -> Option<(u32, u64, u64)> {
    let index = package.index(table)?;
    let row = index.row(identity)?;
    index.part(row, code).map(|(offset, size)| (row, offset, size))
}

fn outside(package: &Package, table: u32, identity: u64, code: u32) -> Option<String> {
    let (row, offset, size) = part(package, table, identity, code)?;
    let (row, name) = (format!("row {row} of {}_index", table_name(table)), section_name(code));
    Some(match package.object.as_ref()?.section(code) {
        None => format!("{row} names {size} bytes of {name}, and the package has no {name}"),
        Some(section) => {
            format!("{row} names {size} bytes at {offset} of {name}, which has {}", section.bytes.len())
        }
    })
}

/// The bytes in front of the entries.
fn header_size(version: u32, width: usize) -> usize {
    match (version, width) {
        (5, 8) => 16,
        (5, _) => 8,
        _ => 0,
    }
}

/// How many entries a unit has.
fn entries(package: &Package, version: u32, table: u32, identity: u64) -> Option<usize> {
    let width = package.object.as_ref()?.encoding.width();
    let size = part(package, table, identity, STR_OFFSETS).map_or(0, |(_, _, size)| size as usize);
    Some(size.saturating_sub(header_size(version, width)) / width)
}

fn lost(package: &Package, version: u32, table: u32, identity: u64, entry: u64) -> Option<String> {
    let object = package.object.as_ref()?;
    let width = object.encoding.width();
    let (_, offset, _) = part(package, table, identity, STR_OFFSETS)?;
    let at = usize::try_from(offset + entry * width as u64).ok()? + header_size(version, width);
    let named = number(object.bytes(STR_OFFSETS), at, width, package.big)?;
    Some(match object.section(STR) {
        None => "the package has no str".to_string(),
        Some(strings) => {
            format!("it names byte {named} of str, which has {}, and no zero follows", strings.bytes.len())
        }
    })
}

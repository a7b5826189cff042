//! `barthovin profile`: whether a package is in the archive profile; `barthovin tables`: the tables that a reader of packages needs.

use super::call::{Call, Known};
use super::files::{no_package, read_package};
use super::{output, Stop, DONE, NOT_DONE};
use crate::profile::{conditions, CONDITIONS};
use std::ffi::OsString;

const OPTIONS: [Known; 1] = [Known { long: "json", short: None, value: false }];

/// What the proved program `archive_tables` prints; the gate holds both to the same stored output.
const TABLES: &str = include_str!("tables.txt");

const NOT_A_PACKAGE: u32 = 21;

/// What is so where a condition fails, in the order of the conditions.
const CAUSES: [&str; CONDITIONS.len()] = [
    "its objects are not of DWARF version 5",
    "it is big-endian",
    "its offset width is not 4",
    "its address size is not 8",
    "it has a macro section",
    "it has no cu_index",
    "its cu_index is not of version 5",
    "its cu_index has no row",
];
/// The condition that there is a cu_index, and those that speak of it.
const HAS_INDEX: usize = 5;
const ABOUT_INDEX: [usize; 2] = [6, 7];

pub fn run(arguments: &[OsString]) -> Result<u8, Stop> {
    let call = match Call::read("profile", &OPTIONS, arguments)? {
        Ok(call) => call,
        Err(status) => return Ok(status),
    };
    let name = &call.exactly(&["PACKAGE"])?[0];
    let package = read_package(&call, name)?.bytes;
    let (code, failed) = conditions(&package);
    if code == NOT_A_PACKAGE {
        return Err(no_package(&call, name, &package));
    }
    let failing: Vec<&str> = (0..CONDITIONS.len()).filter(|i| failed >> i & 1 == 1).map(|i| CONDITIONS[i]).collect();
    let told = match (call.has("json"), failing.is_empty()) {
        (true, is_in) => {
            let list: Vec<String> = failing.iter().map(|condition| format!("\"{condition}\"")).collect();
            format!("{{\"in_profile\":{is_in},\"not_true\":[{}]}}", list.join(","))
        }
        (false, true) => "yes".to_string(),
        (false, false) => format!("no; {}", causes(failed).join("; ")),
    };
    output::print(&told).map(|_| if failing.is_empty() { DONE } else { NOT_DONE })
}

/// What is so instead of each condition that fails. Where there is no cu_index nothing more is said of it.
fn causes(failed: u32) -> Vec<&'static str> {
    let fails = |at: usize| failed >> at & 1 == 1;
    (0..CAUSES.len())
        .filter(|at| fails(*at) && !(ABOUT_INDEX.contains(at) && fails(HAS_INDEX)))
        .map(|at| CAUSES[at])
        .collect()
}

pub fn tables(arguments: &[OsString]) -> Result<u8, Stop> {
    let call = match Call::read("tables", &[], arguments)? {
        Ok(call) => call,
        Err(status) => return Ok(status),
    };
    call.exactly(&[])?;
    output::write_standard(TABLES.as_bytes()).map(|()| DONE)
}

//! `barthovin list`: what a package holds.

use super::call::{Call, Known};
use super::files::{good_package, WITHOUT_INDEX};
use super::{input, output, show, Stop, DONE};
use crate::names::{file_name, section_name, table_name};
use crate::reader::index::Index;
use crate::reader::package::Package;
use crate::reader::source::Sources;
use std::ffi::OsString;
use std::fmt::Write;

const OPTIONS: [Known; 2] =
    [Known { long: "names", short: Some(b'n'), value: false }, Known { long: "json", short: None, value: false }];

pub fn run(arguments: &[OsString]) -> Result<u8, Stop> {
    let call = match Call::read("list", &OPTIONS, arguments)? {
        Ok(call) => call,
        Err(status) => return Ok(status),
    };
    let name = &call.exactly(&["PACKAGE"])?[0];
    let bytes = good_package(&call, name)?.bytes;
    let package = Package::read(&bytes).map_err(|why| Stop::Trouble(format!("{}: {why}", input::shown(name))))?;
    let names = call.has("names").then(|| sources(&package));
    let names = names.as_deref();
    let told = if call.has("json") { json(&package, bytes.len(), names) } else { text(&package, bytes.len(), names) };
    output::write_standard(told.as_bytes()).map(|()| DONE)
}

/// The sources of compilation units, row by row, where they are asked for; one that can't be read is none.
type Names<'n> = Option<&'n [Option<&'n [u8]>]>;

/// The source of the compilation unit of each row, from row 1 on, where it can be read.
fn sources<'b>(package: &Package<'b>) -> Vec<Option<&'b [u8]>> {
    let mut sources = Sources::of(package);
    let rows = package.index(1).map_or(0, |index| index.units as u32);
    (1..=rows).map(|row| sources.name(row)).collect()
}

/// The source of a table's row, where names are asked for: those of compilation units have been read.
fn source<'n>(names: Names<'n>, table: u32, row: u32) -> Option<Option<&'n [u8]>> {
    names.filter(|_| table == 1).map(|names| names[row as usize - 1])
}

/// The identities of each row, from row 1 on; a row has one where the packer wrote the index.
fn identities(index: &Index) -> Vec<Vec<u64>> {
    let mut rows = vec![Vec::new(); index.units];
    for (identity, row) in index.slots.iter().filter(|(_, row)| *row > 0) {
        rows[*row as usize - 1].push(*identity);
    }
    rows
}

fn order(big: bool) -> &'static str {
    if big {
        "big"
    } else {
        "little"
    }
}

fn text(package: &Package, length: usize, names: Names) -> String {
    let mut out = format!("package: {}, {}-endian", show::count(length, "byte"), order(package.big));
    let Some(object) = &package.object else { return out + ", no object\n" };
    // Writing to a string doesn't fail.
    let _ = writeln!(out, ", {}", object.encoding);
    for section in &object.sections {
        let bytes = show::count(section.bytes.len(), "byte");
        let _ = writeln!(out, "section {} {}: {bytes} at {}", section.code, file_name(section.code), section.start);
    }
    for table in [1, 2] {
        let Some(index) = package.index(table) else { continue };
        let (units, slots) = (show::count(index.units, "unit"), show::count(index.slots.len(), "slot"));
        let _ = writeln!(out, "table {}: index version {}, {units}, {slots}", table_name(table), index.version);
        for (identities, row) in identities(index).iter().zip(1..) {
            let identities: Vec<String> = identities.iter().map(|x| format!("{x:#018x}")).collect();
            let identity = if identities.is_empty() { "no-identity".to_string() } else { identities.join(",") };
            let _ = write!(out, "unit {} {identity}:", table_name(table));
            for (column, code) in index.columns.iter().enumerate() {
                let (offset, size) = index.cell(row, column);
                let comma = if column == 0 { "" } else { "," };
                let _ = write!(out, "{comma} {} {size} at {offset}", section_name(*code));
            }
            let source = source(names, table, row).map(|name| name.map_or("no name".to_string(), named));
            let _ = writeln!(out, "{}", source.map(|source| format!("; {source}")).unwrap_or_default());
        }
    }
    if [1, 2].into_iter().all(|table| package.index(table).is_none()) {
        let _ = writeln!(out, "no index: {WITHOUT_INDEX}");
    }
    out
}

fn named(name: &[u8]) -> String {
    format!("name {}", show::escaped(name))
}

fn json(package: &Package, length: usize, names: Names) -> String {
    let mut out = format!("{{\"bytes\":{length},\"byte_order\":\"{}\"", order(package.big));
    if let Some(object) = &package.object {
        let encoding = object.encoding;
        let (version, width, address) = (encoding.version(), encoding.width(), encoding.address());
        let _ = write!(out, ",\"dwarf_version\":{version},\"offset_width\":{width},\"address_size\":{address}");
    }
    let sections = package.object.iter().flat_map(|o| &o.sections).map(|s| {
        let (code, name, start, length) = (s.code, file_name(s.code), s.start, s.bytes.len());
        format!("{{\"code\":{code},\"name\":\"{name}\",\"start\":{start},\"length\":{length}}}")
    });
    let _ = write!(out, ",\"sections\":[{}]", sections.collect::<Vec<_>>().join(","));
    let tables =
        [1, 2].into_iter().filter_map(|table| package.index(table).map(|index| json_table(table, index, names)));
    let _ = writeln!(out, ",\"tables\":[{}]}}", tables.collect::<Vec<_>>().join(","));
    out
}

fn json_table(table: u32, index: &Index, names: Names) -> String {
    let part = |row: u32, column: usize| {
        let (offset, size) = index.cell(row, column);
        format!("\"{}\":{{\"offset\":{offset},\"size\":{size}}}", section_name(index.columns[column]))
    };
    let unit = |(identities, row): (&Vec<u64>, u32)| {
        let identities: Vec<String> = identities.iter().map(|x| format!("\"{x:#018x}\"")).collect();
        let parts: Vec<String> = (0..index.columns.len()).map(|column| part(row, column)).collect();
        let source = source(names, table, row);
        let source =
            source.map(|name| name.map_or("null".to_string(), |name| show::json(&String::from_utf8_lossy(name))));
        let source = source.map(|source| format!(",\"name\":{source}")).unwrap_or_default();
        format!("{{\"identities\":[{}],\"parts\":{{{}}}{source}}}", identities.join(","), parts.join(","))
    };
    let units: Vec<String> = identities(index).iter().zip(1..).map(unit).collect();
    let (name, version, slots) = (table_name(table), index.version, index.slots.len());
    format!("{{\"table\":\"{name}\",\"index_version\":{version},\"slots\":{slots},\"units\":[{}]}}", units.join(","))
}

//! `barthovin sheet`: the index of a package as lines for paper.

use super::call::{Call, Known};
use super::files::{note_without_index, read_package_and_file, refused_call};
use super::{input, output, show, Stop, DONE};
use crate::explain;
use crate::names::{section_name, table_name};
use crate::reader::package::Package;
use crate::reader::source::Sources;
use crate::sheet::sheet;
use crate::sum::sha256;
use std::ffi::OsString;

const OPTIONS: [Known; 2] =
    [Known { long: "pages", short: Some(b'p'), value: false }, Known { long: "json", short: None, value: false }];

/// The lines of a page, and those of its head.
const PAGE: usize = 60;
const HEAD: usize = 4;

/// The characters of a printed line: a longer name goes on in the next line.
const WIDTH: usize = 80;

pub fn run(arguments: &[OsString]) -> Result<u8, Stop> {
    let call = match Call::read("sheet", &OPTIONS, arguments)? {
        Ok(call) => call,
        Err(status) => return Ok(status),
    };
    if call.has("pages") && call.has("json") {
        return Err(call.wrong("options '--pages' and '--json' don't go together"));
    }
    let name = &call.exactly(&["PACKAGE"])?[0];
    let (package, file) = read_package_and_file(&call, name)?;
    let package = package.bytes;
    let lines = sheet(&package)
        .map_err(|number| refused_call(&call, &input::shown(name), number, explain::not_a_sheet(&package)))?;
    note_without_index(&input::shown(name), &package);
    if call.has("json") {
        return output::print(&json(&String::from_utf8_lossy(&lines)));
    }
    if !call.has("pages") {
        return output::write_standard(&lines).map(|()| DONE);
    }
    // The length and the sum are those of the file as it lies on the disk.
    let file = file.as_deref().unwrap_or(&package);
    let head = Head { name: input::shown(name), length: file.len(), sum: sha256(file) };
    let lines = with_names(&package, &String::from_utf8_lossy(&lines));
    output::write_standard(pages(&head, &lines).as_bytes()).map(|()| DONE)
}

/// The lines as a list of objects.
fn json(lines: &str) -> String {
    let hexadecimal = |word: &str| u64::from_str_radix(word, 16).unwrap_or(0);
    let line = |line: &str| {
        let words: Vec<&str> = line.split(' ').collect();
        let table = table_name(if words[0] == "C" { 1 } else { 2 });
        let (section, identity) = (section_name(words[2].parse().unwrap_or(1)), words[1]);
        let (offset, size) = (hexadecimal(words[3]), hexadecimal(words[4]));
        let unit = format!("\"table\":\"{table}\",\"identity\":\"0x{identity}\",\"section\":\"{section}\"");
        format!("{{{unit},\"offset\":{offset},\"size\":{size}}}")
    };
    format!("[{}]", lines.lines().map(line).collect::<Vec<_>>().join(","))
}

/// What each page says of the file.
struct Head {
    name: String,
    length: usize,
    sum: String,
}

/// The lines of a sheet, and in front of a compilation unit's the name of its source where that can be read: N, the identity, the name.
fn with_names(package: &[u8], lines: &str) -> Vec<String> {
    let Ok(package) = Package::read(package) else { return lines.lines().map(str::to_string).collect() };
    let mut sources = Sources::of(&package);
    let columns = package.index(1).map_or(0, |index| index.columns.len());
    let units = package.index(1).map_or(0, |index| index.units) * columns;
    let mut all = Vec::new();
    for (at, line) in lines.lines().enumerate() {
        // The lines of compilation units come first, row by row.
        if at < units && at % columns == 0 {
            let name = sources.name((at / columns + 1) as u32);
            all.extend(name.into_iter().flat_map(|name| name_lines(&line[2..18], &show::escaped(name))));
        }
        all.push(line.to_string());
    }
    all
}

/// A name as it is printed; where it is longer than a line, the lines that it goes on in start with a sign.
fn name_lines(identity: &str, name: &str) -> Vec<String> {
    let mut lines = vec![format!("N {identity} ")];
    for letter in name.chars() {
        if lines.last().is_none_or(|line| line.chars().count() == WIDTH) {
            lines.push("+ ".to_string());
        }
        lines.last_mut().into_iter().for_each(|line| line.push(letter));
    }
    lines
}

/// Pages of 60 lines: a head with the file's name, length and sum and the page's number, what the columns are, and lines. The last page ends
/// with its last line.
fn pages(head: &Head, lines: &[String]) -> String {
    let count = lines.len().div_ceil(PAGE - HEAD).max(1);
    let Head { name, length, sum } = head;
    let mut out = String::new();
    for page in 0..count {
        let first = page * (PAGE - HEAD);
        let here = &lines[first..lines.len().min(first + PAGE - HEAD)];
        out += &format!("{name}, {}, page {} of {count}\n", show::count(*length, "byte"), page + 1);
        out += &format!("SHA-256 {sum}\n");
        out += "C, T: identity, section, offset, size, hexadecimal but section; N: its source\n\n";
        here.iter().for_each(|line| out += &format!("{line}\n"));
    }
    out
}

#[cfg(test)]
mod tests {
    use super::*;

    #[test]
    fn pages_have_60_lines() {
        for (count, wanted) in [(0, 4), (1, 5), (56, 60), (57, 65), (112, 120), (113, 125)] {
            let lines: Vec<String> = (0..count).map(|i| format!("line {i}")).collect();
            let head = Head { name: "some".to_string(), length: 9, sum: "12ab".to_string() };
            let pages = pages(&head, &lines);
            let all: Vec<&str> = pages.lines().collect();
            assert_eq!(all.len(), wanted, "{count} lines");
            let numbers = all.len().div_ceil(PAGE);
            for (page, lines) in all.chunks(PAGE).enumerate() {
                assert_eq!(lines[0], format!("some, 9 bytes, page {} of {numbers}", page + 1));
                assert_eq!((lines[1], lines[3]), ("SHA-256 12ab", ""));
            }
            assert_eq!(all.iter().filter(|line| line.starts_with("line ")).count(), count);
        }
    }

    /// 61 letters fill a line; a longer name loses none.
    #[test]
    fn long_names_go_on() {
        let letters = |count: usize| "abcdefghij".repeat(30)[..count].to_string();
        let lines = |count: usize| name_lines("0123456789abcdef", &letters(count));
        assert_eq!(lines(61), [format!("N 0123456789abcdef {}", letters(61))]);
        assert_eq!(lines(62), [format!("N 0123456789abcdef {}", letters(61)), format!("+ {}", &letters(62)[61..])]);
        let long = lines(200);
        assert!(long.len() == 3 && long.iter().all(|line| line.len() <= WIDTH));
        let whole: String = [&long[0][19..], &long[1][2..], &long[2][2..]].concat();
        assert_eq!(whole, letters(200));
    }
}

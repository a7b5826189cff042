//! `barthovin lookup`: a part or a string of a package.

mod questions;

use super::call::{Call, Known};
use super::files::{note_without_index, read_package, refused_call};
use super::{input, output, show, Stop, DONE, NOT_DONE};
use crate::answer::{Asked, Found};
use crate::explain;
use crate::ffi;
use crate::names::section_code;
use crate::reader::package::Package;
use std::ffi::OsString;

const OPTIONS: [Known; 3] = [
    Known { long: "raw", short: Some(b'r'), value: false },
    Known { long: "json", short: None, value: false },
    Known { long: "questions", short: Some(b'q'), value: true },
];

/// What is asked about a package.
#[derive(Clone, Copy)]
pub struct Question {
    pub version: Option<u32>,
    pub table: u32,
    pub identity: u64,
    pub asked: Asked,
}

pub fn run(arguments: &[OsString]) -> Result<u8, Stop> {
    let call = match Call::read("lookup", &OPTIONS, arguments)? {
        Ok(call) => call,
        Err(status) => return Ok(status),
    };
    if call.has("raw") && call.has("json") {
        return Err(call.wrong("options '--raw' and '--json' don't go together"));
    }
    if let Some(list) = call.value("questions") {
        return questions::run(&call, list);
    }
    let words: Vec<String> = operands(&call)?.iter().map(|word| show::name(word)).collect();
    let question = question(&words).map_err(|message| call.wrong(message))?;
    let package = read_package(&call, &call.operands[0])?.bytes;
    let Question { table, identity, asked, .. } = question;
    // Without a version the index's own is taken; a bad package is refused whatever it is.
    let version = question.version.unwrap_or_else(|| Package::read(&package).map_or(5, |p| p.version()));
    let found = match asked {
        Asked::Section(code) => ffi::lookup(&package, version, table, identity, code),
        Asked::Entry(entry) => ffi::lookup_string(&package, version, table, identity, entry),
    };
    note_without_index(&input::shown(&call.operands[0]), &package);
    match found {
        Found::Part { start, length, .. } if call.has("raw") => {
            output::write_standard(&package[start..start + length]).map(|()| DONE)
        }
        Found::Part { start, length, looks } => {
            output::print(&show::part(call.has("json"), &package[start..start + length], start, looks, asked))
        }
        // Raw output holds nothing but bytes that were found.
        Found::Absent(looks) if call.has("raw") => Err(Stop::Refused(show::absent(false, looks))),
        Found::Absent(looks) => output::print(&show::absent(call.has("json"), looks)).map(|_| NOT_DONE),
        Found::Refused(number) => {
            let why = explain::looking_up(&package, version, table, identity, asked, number);
            Err(refused_call(&call, &input::shown(&call.operands[0]), number, why))
        }
    }
}

/// The operands but the package.
fn operands(call: &Call) -> Result<&[OsString], Stop> {
    let names = ["PACKAGE", "VERSION", "TABLE", "IDENTITY", "section or string", "CODE or ENTRY"];
    let without_version = ["PACKAGE", "TABLE", "IDENTITY", "section or string", "CODE or ENTRY"];
    let operands = if call.operands.len() > 5 { call.exactly(&names)? } else { call.exactly(&without_version)? };
    Ok(&operands[1..])
}

/// [VERSION] TABLE IDENTITY section CODE, or string ENTRY; the error says which word is wrong.
pub fn question(words: &[String]) -> Result<Question, String> {
    let bad = |what: &str, word: &str| format!("{what} '{word}' can't be read");
    let (version, rest) = match words {
        [version, rest @ ..] if rest.len() == 4 => (Some(small(version).ok_or_else(|| bad("version", version))?), rest),
        rest => (None, rest),
    };
    let [table_word, identity_word, kind, last] = rest else {
        return Err(format!("{} where 4 or 5 make a question", show::count(words.len(), "word")));
    };
    let table = table(table_word).ok_or_else(|| bad("table", table_word))?;
    let identity = identity(identity_word).ok_or_else(|| bad("identity", identity_word))?;
    let asked = match kind.as_str() {
        "section" => Asked::Section(section(last).ok_or_else(|| bad("section", last))?),
        "string" => Asked::Entry(number(last).ok_or_else(|| bad("entry", last))?),
        other => return Err(format!("'{other}' is neither section nor string")),
    };
    Ok(Question { version, table, identity, asked })
}

/// Digits alone: a sign or a space is no number.
fn digits(text: &str, radix: u32) -> Option<u64> {
    let good = !text.is_empty() && text.chars().all(|c| c.is_digit(radix));
    good.then(|| u64::from_str_radix(text, radix).ok())?
}

/// Decimal, or hexadecimal following 0x.
fn number(text: &str) -> Option<u64> {
    match text.strip_prefix("0x").or(text.strip_prefix("0X")) {
        Some(hexadecimal) => digits(hexadecimal, 16),
        None => digits(text, 10),
    }
}

fn small(text: &str) -> Option<u32> {
    number(text)?.try_into().ok()
}

/// As a number; without 0x it is hexadecimal too where it has 16 digits, as tools print identities, or a letter.
pub fn identity(text: &str) -> Option<u64> {
    let is_hexadecimal = text.len() == 16 || text.contains(|c: char| c.is_ascii_alphabetic());
    match is_hexadecimal && !text.starts_with("0x") && !text.starts_with("0X") {
        true => digits(text, 16),
        false => number(text),
    }
}

pub fn table(text: &str) -> Option<u32> {
    match text.to_ascii_lowercase().as_str() {
        "cu" => Some(1),
        "tu" => Some(2),
        _ => small(text),
    }
}

pub fn section(text: &str) -> Option<u32> {
    section_code(text).or_else(|| small(text))
}

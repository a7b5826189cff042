//! "Strings": entries, the string that an entry names, the table filled in order of first use.

use super::bundle::Encoding;
use super::bytes::{number, put};
use std::collections::HashMap;

/// The bytes in front of the entries.
pub fn header_size(version: u32, width: usize) -> usize {
    match (version, width) {
        (5, 8) => 16,
        (5, _) => 8,
        _ => 0,
    }
}

/// The entries' values, or none where the section is ill-formed (8).
pub fn entries(section: &[u8], encoding: Encoding) -> Option<Vec<u64>> {
    let header = header_size(encoding.version, encoding.width);
    let rest = section.get(header..)?;
    if rest.len() % encoding.width != 0 || !header_is_true(section, encoding) {
        return None;
    }
    rest.chunks(encoding.width).map(|e| number(e, 0, encoding.width, encoding.big)).collect()
}

/// The length of the rest, 5, 0.
fn header_is_true(section: &[u8], encoding: Encoding) -> bool {
    let field = |at, width| number(section, at, width, encoding.big);
    match (encoding.version, encoding.width) {
        (4, _) => true,
        (_, 4) => field(0, 4) == Some(section.len() as u64 - 4) && field(4, 2) == Some(5) && field(6, 2) == Some(0),
        _ => {
            let length = field(0, 4) == Some(0xFFFF_FFFF) && field(4, 8) == Some(section.len() as u64 - 12);
            length && field(12, 2) == Some(5) && field(14, 2) == Some(0)
        }
    }
}

/// The bytes in str from an offset up to a zero byte, without it.
pub fn string_at(strings: &[u8], offset: u64) -> Option<&[u8]> {
    let rest = strings.get(usize::try_from(offset).ok()?..)?;
    rest.iter().position(|b| *b == 0).map(|end| &rest[..end])
}

/// The strings kept, and the str section they make. Once that is above the limit nothing is kept any more: then the
/// answer is a refusal, whatever the offsets are.
pub struct StringTable<'a> {
    offsets: HashMap<&'a [u8], u64>,
    pub data: Vec<u8>,
    most: usize,
}

impl<'a> StringTable<'a> {
    pub fn new(most: usize) -> StringTable<'a> {
        StringTable { offsets: HashMap::new(), data: Vec::new(), most }
    }

    fn get_or_insert(&mut self, string: &'a [u8]) -> u64 {
        if self.data.len() > self.most {
            return 0;
        }
        if let Some(offset) = self.offsets.get(string) {
            return *offset;
        }
        let offset = self.data.len() as u64;
        self.offsets.insert(string, offset);
        self.data.extend(string);
        self.data.push(0);
        offset
    }

    /// The section with the offsets of the new str; the error is the refusal, 8 or 9.
    pub fn remap(&mut self, section: &[u8], strings: &'a [u8], encoding: Encoding) -> Result<Vec<u8>, u32> {
        let entries = entries(section, encoding).ok_or(8u32)?;
        let mut out = section[..header_size(encoding.version, encoding.width)].to_vec();
        for offset in entries {
            let string = string_at(strings, offset).ok_or(9u32)?;
            put(&mut out, self.get_or_insert(string), encoding.width, encoding.big);
        }
        Ok(out)
    }
}

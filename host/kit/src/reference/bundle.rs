//! A bundle (FORMAT 2): its words, and a bundle written.

use super::bytes::number;

#[derive(Clone, Debug, PartialEq, Eq)]
pub struct Section<'a> {
    pub code: u32,
    /// Where the bytes lie in the bundle.
    pub start: usize,
    pub bytes: &'a [u8],
}

#[derive(Clone, Debug, PartialEq, Eq)]
pub struct Object<'a> {
    pub word: u32,
    pub sections: Vec<Section<'a>>,
}

#[derive(Clone, Debug, PartialEq, Eq)]
pub struct Bundle<'a> {
    pub big: bool,
    pub objects: Vec<Object<'a>>,
}

/// What an object word states, with the head's byte order.
#[derive(Clone, Copy, Debug, PartialEq, Eq)]
pub struct Encoding {
    pub big: bool,
    pub version: u32,
    pub width: usize,
    pub address: u32,
}

impl Encoding {
    pub fn of(big: bool, word: u32) -> Encoding {
        Encoding { big, version: word & 0xFF, width: (word >> 8 & 0xFF) as usize, address: word >> 16 & 0xFF }
    }

    /// What 4 asks.
    pub fn is_known(&self) -> bool {
        matches!(self.version, 4 | 5) && matches!(self.width, 4 | 8) && matches!(self.address, 4 | 8)
    }
}

impl<'a> Object<'a> {
    pub fn count(&self, code: u32) -> usize {
        self.sections.iter().filter(|s| s.code == code).count()
    }

    pub fn section(&self, code: u32) -> Option<&Section<'a>> {
        self.sections.iter().find(|s| s.code == code)
    }

    /// A section's bytes, none where there is no such section.
    pub fn bytes(&self, code: u32) -> &'a [u8] {
        self.section(code).map_or(&[], |s| s.bytes)
    }
}

/// What 1 and 21 ask of a length.
pub fn length_is_good(length: usize, most: usize) -> bool {
    (8..=most).contains(&length) && length.is_multiple_of(4)
}

fn word(bytes: &[u8], at: usize) -> Option<u32> {
    number(bytes, at, 4, false).map(|w| w as u32)
}

impl<'a> Bundle<'a> {
    /// None where the word format is broken.
    pub fn read(bytes: &'a [u8]) -> Option<Bundle<'a>> {
        Bundle::read_words(bytes).ok()
    }

    /// The same; the error is the place of the first bad word.
    pub fn read_words(bytes: &'a [u8]) -> Result<Bundle<'a>, usize> {
        let big = match word(bytes, 0) {
            Some(0xF000_0000) => false,
            Some(0xF000_0001) => true,
            _ => return Err(0),
        };
        let mut objects = Vec::new();
        let mut at = 4;
        loop {
            let place = at;
            let whole = word(bytes, place).ok_or(place)?;
            let (kind, rest) = (whole >> 28, whole & 0x0FFF_FFFF);
            at += 4;
            match kind {
                1 if rest < 1 << 24 => objects.push(Object { word: 1 << 28 | rest, sections: Vec::new() }),
                2 => {
                    let section = read_section(bytes, at, rest).ok_or(place)?;
                    at += section.bytes.len().next_multiple_of(4);
                    objects.last_mut().ok_or(place)?.sections.push(section);
                }
                3 if at == bytes.len() && rest as usize * 4 == at => return Ok(Bundle { big, objects }),
                _ => return Err(place),
            }
        }
    }
}

/// The section whose bytes start at `at`, filled up to a whole word with zeros.
fn read_section(bytes: &[u8], at: usize, rest: u32) -> Option<Section<'_>> {
    let (code, length) = (rest >> 23, (rest & 0x7F_FFFF) as usize);
    let filled = bytes.get(at..at + length.next_multiple_of(4))?;
    let (section, filling) = filled.split_at(length);
    ((1..=13).contains(&code) && filling.iter().all(|b| *b == 0)).then_some(Section { code, start: at, bytes: section })
}

/// A bundle of at most one object, its sections in the order given.
pub fn write(big: bool, word: Option<u32>, sections: &[(u32, Vec<u8>)]) -> Vec<u8> {
    let mut out = Vec::new();
    let put = |out: &mut Vec<u8>, w: u32| out.extend(w.to_le_bytes());
    put(&mut out, 0xF000_0000 | u32::from(big));
    if let Some(w) = word {
        put(&mut out, w);
    }
    for (code, bytes) in sections {
        put(&mut out, 2 << 28 | code << 23 | bytes.len() as u32);
        out.extend(bytes);
        out.resize(out.len().next_multiple_of(4), 0);
    }
    let words = out.len() as u32 / 4 + 1;
    put(&mut out, 3 << 28 | words);
    out
}

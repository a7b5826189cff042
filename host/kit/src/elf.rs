//! FORMAT 8.2 and 8.4 in plain Rust: an ELF file of either class read, and the bundle of its debug sections written, with every refusal.
//!
//! It is written from the rules alone, and shares no code with the proved definitions.

use crate::reference::{number, Packed};

/// The names of wanted sections; the code is the place, counted from 1.
pub const NAMES: [&str; 13] = [
    ".debug_info.dwo",
    ".debug_types.dwo",
    ".debug_abbrev.dwo",
    ".debug_line.dwo",
    ".debug_loc.dwo",
    ".debug_str_offsets.dwo",
    ".debug_macinfo.dwo",
    ".debug_macro.dwo",
    ".debug_loclists.dwo",
    ".debug_rnglists.dwo",
    ".debug_str.dwo",
    ".debug_cu_index",
    ".debug_tu_index",
];

/// The class of a file. Where things stand in it follows from the width of its addresses and sizes: what stands in front of them is the same in both.
#[derive(Clone, Copy, Debug, PartialEq, Eq)]
pub enum Class {
    Elf32,
    Elf64,
}

impl Class {
    pub const BOTH: [Class; 2] = [Class::Elf32, Class::Elf64];

    /// What the file's fifth byte says.
    pub fn mark(self) -> u8 {
        match self {
            Class::Elf32 => 1,
            Class::Elf64 => 2,
        }
    }

    /// The bytes of an address, an offset or a size.
    pub fn word(self) -> usize {
        4 * self.mark() as usize
    }

    /// The bytes of the file's header: 16 that identify it, type, machine and version; three words; flags; six halves.
    pub fn header(self) -> usize {
        16 + 8 + 3 * self.word() + 4 + 6 * 2
    }

    /// The bytes of a section header: name and type, four words, link and info, two words.
    pub fn section_header(self) -> usize {
        8 + 4 * self.word() + 8 + 2 * self.word()
    }
}

const RELOCATABLE: u64 = 1;
const WITHOUT_BYTES: u64 = 8;
const RELOCATIONS: [u64; 2] = [4, 9];
const COMPRESSED: u64 = 0x800;
const EXTENDED: u64 = 0xFFFF;

const LONGEST_SECTION: u64 = 8_388_607;
const LONGEST_BUNDLE: u64 = 117_440_512;

/// A section header's fields that count.
struct Header {
    name: u64,
    kind: u64,
    flags: u64,
    offset: u64,
    size: u64,
    info: u64,
}

/// A wanted section; `at` is the number of its header.
struct Wanted<'f> {
    at: u64,
    code: u32,
    kind: u64,
    flags: u64,
    bytes: &'f [u8],
}

struct Elf<'f> {
    big: bool,
    headers: Vec<Header>,
    wanted: Vec<Wanted<'f>>,
}

/// The bytes of a part, or none where they are not all in the file. An empty part has no byte that could lie outside.
fn part(file: &[u8], offset: u64, size: u64) -> Option<&[u8]> {
    if size == 0 {
        return Some(&[]);
    }
    let end = offset.checked_add(size)?;
    file.get(usize::try_from(offset).ok()?..usize::try_from(end).ok()?)
}

/// None is 31.
fn parse(class: Class, file: &[u8]) -> Option<Elf<'_>> {
    let ident = file.get(..class.header())?;
    let big = match ident[5] {
        1 => false,
        2 => true,
        _ => return None,
    };
    let field = |at, width| number(file, at, width, big);
    if !ident.starts_with(b"\x7FELF") || ident[4] != class.mark() || field(16, 2)? != RELOCATABLE {
        return None;
    }
    // The last three halves of the header.
    let [size, count, names] = [3, 2, 1].map(|back| class.header() - 2 * back);
    let (size, count, names) = (field(size, 2)?, field(count, 2)?, field(names, 2)?);
    if size != class.section_header() as u64 {
        return None;
    }
    // Of the three words the last.
    let start = field(24 + 2 * class.word(), class.word())?;
    // Number 0 of headers is extended numbering too.
    if count == 0 || names == EXTENDED || names >= count {
        return None;
    }
    let table = part(file, start, count * size)?;
    let headers = table.chunks(class.section_header()).map(|h| header(class, h, big));
    let headers: Vec<Header> = headers.collect::<Option<_>>()?;
    let names = &headers[names as usize];
    let names = if names.kind == WITHOUT_BYTES { &[] } else { part(file, names.offset, names.size)? };
    let mut wanted = Vec::new();
    for (header, at) in headers.iter().zip(0..) {
        let Some(code) = code_of(names, header.name)? else { continue };
        let bytes = if header.kind == WITHOUT_BYTES { &[] } else { part(file, header.offset, header.size)? };
        wanted.push(Wanted { at, code, kind: header.kind, flags: header.flags, bytes });
    }
    Some(Elf { big, headers, wanted })
}

fn header(class: Class, bytes: &[u8], big: bool) -> Option<Header> {
    let field = |at, width| number(bytes, at, width, big);
    // Flags, address, offset and size.
    let word = |i: usize| field(8 + i * class.word(), class.word());
    let link = 8 + 4 * class.word();
    Some(Header {
        name: field(0, 4)?,
        kind: field(4, 4)?,
        flags: word(0)?,
        offset: word(2)?,
        size: word(3)?,
        info: field(link + 4, 4)?,
    })
}

/// The code of a name; the outer none where it doesn't end in the table, the inner one where it is not wanted.
fn code_of(names: &[u8], offset: u64) -> Option<Option<u32>> {
    let rest = names.get(usize::try_from(offset).ok()?..)?;
    let end = rest.iter().position(|b| *b == 0)?;
    Some(NAMES.iter().position(|name| name.as_bytes() == &rest[..end]).map(|at| at as u32 + 1))
}

/// 32: a wanted section that is compressed, without bytes, or the target of a relocation section.
fn is_unusable(elf: &Elf) -> bool {
    let targets: std::collections::HashSet<u64> =
        elf.headers.iter().filter(|h| RELOCATIONS.contains(&h.kind)).map(|h| h.info).collect();
    elf.wanted.iter().any(|w| w.kind == WITHOUT_BYTES || w.flags & COMPRESSED != 0 || targets.contains(&w.at))
}

/// The object word by the first unit of the first info that is not empty; none is 33.
fn object_word(elf: &Elf) -> Option<u32> {
    let unit = elf.wanted.iter().find(|w| w.code == 1 && !w.bytes.is_empty())?.bytes;
    let field = |at, width| number(unit, at, width, elf.big);
    let (after, length, width) = match field(0, 4)? {
        0xFFFF_FFFF => (12, field(4, 8)?, 8),
        0xFFFF_FFF0..=0xFFFF_FFFE => return None,
        length => (4, length, 4),
    };
    let unit = part(unit, 0, length.checked_add(after as u64)?)?;
    let field = |at, width| number(unit, at, width, elf.big);
    let version = field(after, 2)?;
    let (address, size) = match version {
        4 => (field(after + 2 + width, 1)?, after + 3 + width),
        5 => {
            let common = after + 4 + width;
            let size = match field(after + 2, 1)? {
                4 | 5 => common + 8,
                2 | 6 => common + 8 + width,
                _ => common,
            };
            (field(after + 3, 1)?, size)
        }
        _ => return None,
    };
    (unit.len() >= size).then_some(1 << 28 | (address as u32) << 16 | (width as u32) << 8 | version as u32)
}

/// The bundle of an ELF64 file's wanted sections, in the order of their headers.
pub fn read(file: &[u8], output: usize) -> Packed {
    read_of(Class::Elf64, file, output)
}

/// The same of a file of a class.
pub fn read_of(class: Class, file: &[u8], output: usize) -> Packed {
    let Some(elf) = parse(class, file) else { return Packed::Refused(31) };
    if is_unusable(&elf) {
        return Packed::Refused(32);
    }
    let Some(word) = object_word(&elf) else { return Packed::Refused(33) };
    let sizes = || elf.wanted.iter().map(|w| w.bytes.len() as u64);
    let length = 12 + sizes().map(|size| 4 + size.next_multiple_of(4)).sum::<u64>();
    if sizes().any(|size| size > LONGEST_SECTION) || length > LONGEST_BUNDLE {
        return Packed::Refused(19);
    }
    if length > output as u64 {
        return Packed::Short(length as usize);
    }
    let mut bundle = Vec::with_capacity(length as usize);
    let mut put = |word: u32, bytes: &[u8]| {
        bundle.extend(word.to_le_bytes());
        bundle.extend(bytes);
        bundle.resize(bundle.len().next_multiple_of(4), 0);
    };
    put(0xF000_0000 | u32::from(elf.big), &[]);
    put(word, &[]);
    elf.wanted.iter().for_each(|w| put(2 << 28 | w.code << 23 | w.bytes.len() as u32, w.bytes));
    put(3 << 28 | (length / 4) as u32, &[]);
    Packed::Made(bundle)
}

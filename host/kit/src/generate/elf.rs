//! ELF files: good ones that hold an object's sections in any order and place, and damaged ones that reach the refusals.

use super::objects::good;
use super::random::Random;
use crate::elf::{Class, NAMES};
use crate::reference::put;

/// A section header, and the bytes that it names where they are its own.
#[derive(Clone, Debug, Default)]
struct Header {
    name: String,
    kind: u64,
    flags: u64,
    info: u64,
    bytes: Vec<u8>,
}

/// Names that are not wanted, some of which look like it.
const OTHERS: [&str; 8] = [
    "",
    ".text",
    ".debug_info",
    ".debug_info.dwo.x",
    "debug_info.dwo",
    ".debug_cu_index.dwo",
    ".rela.debug_info.dwo",
    ".symtab",
];

/// A file of an object's sections with others between them; most are good.
pub fn elf(class: Class, random: &mut Random) -> Vec<u8> {
    let draft = good(random);
    let big = draft.big;
    let mut headers = vec![Header::default()];
    if let Some(object) = draft.objects.into_iter().next() {
        for (code, bytes) in object.sections {
            headers.push(Header { name: NAMES[code as usize - 1].to_string(), kind: 1, bytes, ..Header::default() });
            if random.one_in(4) {
                headers.push(other(random));
            }
        }
    }
    let spoilt = random.one_in(3);
    if spoilt {
        spoil(random, &mut headers);
    }
    let file = lay_out(class, random, &headers, big);
    if random.one_in(2) {
        file
    } else {
        damage(class, random, file, headers.len())
    }
}

/// A section that is not wanted, of any kind: a relocation section of something that isn't wanted either.
fn other(random: &mut Random) -> Header {
    let kind = random.pick(&[0, 1, 2, 3, 4, 8, 9]);
    let info = if matches!(kind, 4 | 9) { random.pick(&[0, 60_000]) } else { random.below(8) };
    let flags = random.pick(&[0, 0x800, 6]);
    Header { name: random.pick(&OTHERS).to_string(), kind, flags, info, bytes: random.bytes(12) }
}

/// What 32 and 33 are about.
fn spoil(random: &mut Random, headers: &mut Vec<Header>) {
    let at = random.below(headers.len() as u64) as usize;
    match random.below(7) {
        0 => headers[at].kind = 8,
        1 => headers[at].flags |= 0x800,
        2 => headers.push(Header { kind: random.pick(&[4, 9]), info: at as u64, ..other(random) }),
        3 => headers.retain(|h| h.name != NAMES[0]),
        4 => headers[at].name = random.pick(&NAMES).to_string(),
        5 => headers[at].bytes = random.bytes(30),
        _ => {
            let copy = headers[at].clone();
            headers.push(copy);
        }
    }
}

/// The name table of headers, and where each name stands in it; the table's own is the last.
fn name_table(headers: &[Header]) -> (Vec<u8>, Vec<usize>) {
    let (mut names, mut places) = (Vec::new(), Vec::new());
    for name in headers.iter().map(|header| header.name.as_str()).chain([".shstrtab"]) {
        places.push(names.len());
        names.extend(name.bytes());
        names.push(0);
    }
    (names, places)
}

/// Header, sections in any order, the name table, section headers first or last.
fn lay_out(class: Class, random: &mut Random, headers: &[Header], big: bool) -> Vec<u8> {
    let (front, size) = (class.header(), class.section_header());
    let (names, name_at) = name_table(headers);
    let table = Header { kind: 3, bytes: names, ..Header::default() };
    let all: Vec<&Header> = headers.iter().chain([&table]).collect();
    let headers_first = random.one_in(3);
    let mut file = vec![0; if headers_first { front + size * all.len() } else { front }];
    let mut order: Vec<usize> = (0..all.len()).collect();
    random.shuffle(&mut order);
    let mut places = vec![0; all.len()];
    for i in order {
        places[i] = file.len();
        file.extend(&all[i].bytes);
        file.extend(vec![0xA5; random.below(3) as usize]);
    }
    let headers_at = if headers_first { front } else { file.len() };
    file.resize(file.len().max(headers_at + size * all.len()), 0);
    for (i, header) in all.iter().enumerate() {
        let Header { kind, flags, info, .. } = **header;
        let section = Section { name: name_at[i], kind, flags, at: places[i], size: header.bytes.len(), info };
        file[headers_at + size * i..][..size].copy_from_slice(&section.header(class, big));
    }
    file[..front].copy_from_slice(&elf_header(class, big, headers_at, all.len(), headers.len()));
    file
}

/// What a section header states.
struct Section {
    name: usize,
    kind: u64,
    flags: u64,
    at: usize,
    size: usize,
    info: u64,
}

impl Section {
    fn header(&self, class: Class, big: bool) -> Vec<u8> {
        let word = class.word();
        let words = [(self.flags, word), (0, word), (self.at as u64, word), (self.size as u64, word)];
        let mut fields = vec![(self.name as u64, 4), (self.kind, 4)];
        fields.extend(words);
        fields.extend([(0, 4), (self.info, 4), (1, word), (0, word)]);
        let mut bytes = Vec::new();
        fields.iter().for_each(|(value, width)| put(&mut bytes, *value, *width, big));
        bytes
    }
}

fn elf_header(class: Class, big: bool, headers_at: usize, count: usize, names: usize) -> Vec<u8> {
    let mut head = b"\x7FELF".to_vec();
    head.extend([class.mark(), if big { 2 } else { 1 }, 1, 0, 0, 0, 0, 0, 0, 0, 0, 0]);
    let word = class.word();
    let fields = [(1, 2), (62, 2), (1, 4), (0, word), (0, word), (headers_at as u64, word), (0, 4)];
    fields.iter().for_each(|(value, width)| put(&mut head, *value, *width, big));
    let halves = [class.header(), 0, 0, class.section_header(), count, names];
    halves.iter().for_each(|value| put(&mut head, *value as u64, 2, big));
    head
}

/// Damage to bytes: of the header, of a section header, of any place, and cuts.
fn damage(class: Class, random: &mut Random, mut file: Vec<u8>, headers: usize) -> Vec<u8> {
    let (word, front, size) = (class.word() as u64, class.header() as u64, class.section_header() as u64);
    for _ in 0..random.between(1, 2) {
        if file.is_empty() {
            return file;
        }
        let length = file.len() as u64;
        let big = file.get(5) == Some(&2);
        let table = 24 + 2 * class.word();
        let table = crate::reference::number(&file, table, class.word(), big).filter(|at| *at < length).unwrap_or(0);
        let in_table = |random: &mut Random| table + random.below(headers as u64 + 1) * size;
        let info = 12 + 4 * word;
        let (at, width) = match random.below(8) {
            0 => (random.below(front), random.pick(&[1, 2, word])),
            1 => (random.pick(&[4, 5, 16, 24 + 2 * word, front - 6, front - 4, front - 2]), random.pick(&[1, 2])),
            2 | 3 => {
                (in_table(random) + random.pick(&[0, 4, 8, 8 + 2 * word, 8 + 3 * word, info]), random.pick(&[4, word]))
            }
            4 => (random.below(length), 1),
            5 => {
                file.truncate(random.below(length + 1) as usize);
                continue;
            }
            6 => {
                let cut = random.pick(&[1, 2, size - 1, size, size + 1]);
                file.truncate(length.saturating_sub(cut) as usize);
                continue;
            }
            _ => (in_table(random), random.below(size)),
        };
        let (at, width) = (at as usize, width.clamp(1, 8) as usize);
        let Some(old) = crate::reference::number(&file, at, width, big) else { continue };
        let telling = [0, 1, 4, 8, 9, 0x800, 0xFFFF, 0xFFFF_FFFF, u64::MAX, length, length - 1];
        let changed = [old.wrapping_add(1), old.wrapping_sub(1), old ^ 0x80, old << 1, old.wrapping_add(64)];
        let new = if random.one_in(2) { random.pick(&telling) } else { random.pick(&changed) };
        let mut field = Vec::new();
        put(&mut field, new, width, big);
        file[at..at + width].copy_from_slice(&field);
    }
    file
}

/// A file with so many headers, whose names are wanted or nearly as long as the table, half of them relocation sections of unwanted
/// sections: names that are read again for each header, or targets that are searched for each wanted section, would take hours.
pub fn hostile(headers: usize, table: usize) -> Vec<u8> {
    hostile_of(Class::Elf64, headers, table)
}

/// The same of a class.
pub fn hostile_of(class: Class, headers: usize, table: usize) -> Vec<u8> {
    let mut names = vec![b'x'; table];
    let wanted = NAMES[3].len();
    names[table - 1] = 0;
    names[table - 2 - wanted..table - 2].copy_from_slice(NAMES[3].as_bytes());
    names[table - 2] = 0;
    let info = [17u32.to_le_bytes().to_vec(), vec![5, 0, 4, 8], vec![0; 13]].concat();
    names.splice(0..0, [NAMES[0].as_bytes(), &[0]].concat());
    let (names_at, info_at) = (class.header(), class.header() + names.len());
    let headers_at = info_at + info.len();
    let mut file = elf_header(class, false, headers_at, headers, 1);
    file.extend(&names);
    file.extend(&info);
    for i in 0..headers {
        let long = NAMES[0].len() + 1 + i % 4;
        let wanted_at = names.len() - 2 - wanted;
        let (name, kind, at, size, info) = match i {
            0 => (0, 1, info_at, info.len(), 0),
            1 => (names.len() - 1, 3, names_at, names.len(), 0),
            _ if i % 4 == 2 => (wanted_at, 1, 0, 0, 0),
            _ if i % 2 == 1 => (long, 4, 0, 0, 1),
            _ => (long, 1, 0, 0, 0),
        };
        file.extend(Section { name, kind, flags: 0, at, size, info }.header(class, false));
    }
    file
}

/// A file whose sections, one info and so many others of one size, lie over each other.
pub fn long(size: usize, count: usize) -> Vec<u8> {
    long_of(Class::Elf64, size, count)
}

/// The same of a class.
pub fn long_of(class: Class, size: usize, count: usize) -> Vec<u8> {
    let names = [NAMES[0].as_bytes(), &[0], NAMES[3].as_bytes(), &[0]].concat();
    let line = NAMES[0].len() + 1;
    let unit = [17u32.to_le_bytes().to_vec(), vec![5, 0, 4, 8], vec![0; 13]].concat();
    let names_at = class.header();
    let headers_at = names_at + names.len() + unit.len() + size;
    let mut file = elf_header(class, false, headers_at, count + 2, 1);
    file.extend(&names);
    file.extend(&unit);
    file.extend(vec![7; size]);
    let unit_at = names_at + names.len();
    let sections = std::iter::repeat_n((line, 1, unit_at + unit.len(), size), count);
    for (name, kind, at, size) in
        [(0, 1, unit_at, unit.len()), (0, 3, names_at, names.len())].into_iter().chain(sections)
    {
        let name = if kind == 3 { names.len() - 1 } else { name };
        file.extend(Section { name, kind, flags: 0, at, size, info: 0 }.header(class, false));
    }
    file
}

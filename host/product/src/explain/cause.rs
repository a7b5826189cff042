//! What is wrong at a place that packing refuses. Each function looks for the faults of one number alone.

use super::place::Place;
use super::Names;
use crate::names::{section_name, ABBREV, CU_INDEX, INFO, MACRO, RNGLISTS, STR, STR_OFFSETS, TU_INDEX, TYPES};
use crate::reader::bundle::{Bundle, Object};
use crate::reader::index::{empty_index, Index};
use crate::reader::number;
use crate::reader::pieces::{is_package_of_five, pieces, Piece};
use crate::reader::unit::{spans, Identities, Span, Why};

/// What helps where gcc wrote macros.
const SEVERAL_MACROS: &str =
    "; gcc -g3 writes several: -gdwarf-4 -gstrict-dwarf -g3 writes one and keeps the macros, -g2 leaves them out";

/// Sections that a version doesn't have.
const NOT_IN_VERSION_5: [u32; 3] = [2, 5, 7];
const NOT_IN_VERSION_4: [u32; 2] = [9, 10];

/// The cause in words, where it is found.
pub fn of(bundle: &Bundle, place: &Place, refusal: u32, names: &Names) -> Option<String> {
    let object = &bundle.objects[place.object - 1];
    match (refusal, &place.unit) {
        (4, _) => Some(format!("it states {}", object.encoding)),
        (5, _) => Some(other_encoding(object, &bundle.objects[0], &names.object(1))),
        (6, _) => wrong_section(object),
        (7, _) => missing_section(object),
        (8, _) => pieces(object).iter().find_map(|piece| string_offsets(object, piece)),
        (9, _) => pieces(object).iter().find_map(|piece| lost_string(object, piece)),
        (10, _) => bad_index(object),
        (34, _) => bad_pieces(object),
        (11, Some(unit)) => match Identities::of(object).identity(unit) {
            Err(Why::Header(why)) => Some(why),
            _ => None,
        },
        (12, Some(unit)) => match Identities::of(object).identity(unit) {
            Err(Why::Identity(why)) => Some(why),
            _ => None,
        },
        (14, Some(unit)) => first_of_identity(bundle, place.object, unit, names),
        (15 | 16, Some(unit)) => row(object, unit, refusal),
        _ => None,
    }
}

pub fn other_encoding(object: &Object, first: &Object, name: &str) -> String {
    let other = object.encoding.version() != first.encoding.version();
    let hint = if other { "; pack each DWARF version by itself" } else { "" };
    format!("it states {}, {name} {}{hint}", object.encoding, first.encoding)
}

fn wrong_section(object: &Object) -> Option<String> {
    let version = object.encoding.version();
    let wrong: &[u32] = if version == 5 { &NOT_IN_VERSION_5 } else { &NOT_IN_VERSION_4 };
    if let Some(code) = wrong.iter().find(|code| object.count(**code) > 0) {
        return Some(format!("it has {}, which objects of DWARF {version} don't have", section_name(*code)));
    }
    if let Some(code) = (ABBREV..=TU_INDEX).find(|code| object.count(*code) > 1) {
        let hint = if code == MACRO { SEVERAL_MACROS } else { "" };
        return Some(format!("it has {} {} sections{hint}", object.count(code), section_name(code)));
    }
    let beside = |code: u32, index: u32| object.count(code) > 1 && object.count(index) > 0;
    let types = if version == 5 { INFO } else { TYPES };
    let (code, index) = [(INFO, CU_INDEX), (types, TU_INDEX)].into_iter().find(|(c, i)| beside(*c, *i))?;
    Some(format!("it has {} {} sections beside {}", object.count(code), section_name(code), section_name(index)))
}

fn missing_section(object: &Object) -> Option<String> {
    let lacks = |code| object.count(code) == 0;
    if let Some(code) = [ABBREV, INFO].into_iter().find(|code| lacks(*code)) {
        return Some(format!("it has no {}", section_name(code)));
    }
    (!lacks(STR_OFFSETS) && lacks(STR)).then(|| "it has str_offsets and no str".to_string())
}

/// The bytes in front of the entries.
fn header_size(object: &Object) -> usize {
    match (object.encoding.version(), object.encoding.width()) {
        (5, 8) => 16,
        (5, _) => 8,
        _ => 0,
    }
}

/// A part's bytes, where it is inside, and how it is called.
fn read_piece<'a>(object: &Object<'a>, piece: &Piece) -> Option<(&'a [u8], String)> {
    let Piece { offset, size, named_by } = *piece;
    let bytes = object.bytes(STR_OFFSETS).get(offset as usize..(offset + size) as usize)?;
    let part = named_by.map_or(String::new(), |_| format!(" in the part of {size} bytes at {offset}"));
    Some((bytes, part))
}

/// A part that ends outside the section or lies over another one, or bytes that are in none.
fn bad_pieces(object: &Object) -> Option<String> {
    let has = object.bytes(STR_OFFSETS).len() as u64;
    let row = |piece: &Piece| piece.named_by.map(|(code, row)| format!("row {row} of {}", section_name(code)));
    let (mut at, mut before) = (0, None);
    for piece in pieces(object) {
        let Piece { offset, size, .. } = piece;
        let named = format!("{} names {size} bytes at {offset} of str_offsets", row(&piece)?);
        if offset + size > has {
            return Some(format!("{named}, which has {has}"));
        }
        if offset < at {
            return Some(format!("{named}, over the part that {} names", row(&before?)?));
        }
        if offset > at {
            return Some(format!("bytes {at} to {} of str_offsets are in no row's part", offset - 1));
        }
        (at, before) = (offset + size, Some(piece));
    }
    (at < has).then(|| format!("bytes {at} to {} of str_offsets are in no row's part", has - 1))
}

fn string_offsets(object: &Object, piece: &Piece) -> Option<String> {
    let (bytes, part) = read_piece(object, piece)?;
    let (width, big) = (object.encoding.width(), object.encoding.big);
    let header = header_size(object);
    if bytes.len() < header {
        return Some(format!("str_offsets has {} bytes{part}, its header {header}", bytes.len()));
    }
    if header > 0 {
        let stated = number(bytes, header - 4 - width, width, big)?;
        let following = (bytes.len() + 4 - header) as u64;
        let version = number(bytes, header - 4, 2, big)?;
        let mark = width == 4 || number(bytes, 0, 4, big)? == 0xFFFF_FFFF;
        if !mark || stated != following {
            return Some(format!("str_offsets states a length of {stated}{part}, and {following} bytes follow"));
        }
        if version != 5 || number(bytes, header - 2, 2, big)? != 0 {
            return Some(format!(
                "the header of str_offsets{part} states version {version}, or its padding is not zero"
            ));
        }
    }
    let entries = bytes.len() - header;
    let cut = || format!("the entries of str_offsets{part} take {entries} bytes, no multiple of {width}");
    (entries % width != 0).then(cut)
}

fn lost_string(object: &Object, piece: &Piece) -> Option<String> {
    let (bytes, part) = read_piece(object, piece)?;
    let (strings, width) = (object.bytes(STR), object.encoding.width());
    // An offset following the last zero leads to no zero.
    let strings_end = strings.iter().rposition(|b| *b == 0).map_or(0, |last| last + 1);
    let entries = bytes.get(header_size(object)..)?;
    let offsets = entries.chunks(width).map(|entry| number(entry, 0, width, object.encoding.big));
    let (entry, offset) = offsets.enumerate().find(|(_, offset)| offset.is_none_or(|o| o >= strings_end as u64))?;
    let has = strings.len();
    let offset = offset?;
    Some(format!("entry {entry} of str_offsets{part} names byte {offset} of str, which has {has}, and no zero follows"))
}

fn bad_index(object: &Object) -> Option<String> {
    [CU_INDEX, TU_INDEX].into_iter().find_map(|code| {
        let section = object.section(code)?;
        match Index::read(section.bytes, object.encoding.big) {
            Err(why) => {
                Some(format!("{}: {why}{}", section_name(code), empty_index(code, section.bytes, object.encoding.big)))
            }
            Ok(index) if (index.version == 5) != (object.encoding.version() == 5) => {
                Some(format!("{} has version {}", section_name(code), index.version))
            }
            Ok(_) => None,
        }
    })
}

/// The unit that has the identity already.
fn first_of_identity(bundle: &Bundle, number: usize, unit: &Span, names: &Names) -> Option<String> {
    let seen = Identities::of(&bundle.objects[number - 1]).identity(unit).ok()?;
    for (object, other) in bundle.objects.iter().zip(1..=number) {
        let identities = Identities::of(object);
        let first = spans(object).into_iter().find(|span| identities.identity(span) == Ok(seen));
        if let Some(first) = first {
            let (object, unit) = (names.object(other), names.unit(&first));
            return Some(format!("identity {:#018x} is that of {object}, {unit}", seen.1));
        }
    }
    None
}

fn row(object: &Object, unit: &Span, refusal: u32) -> Option<String> {
    let (table, identity) = match Identities::of(object).identity(unit) {
        Ok(read) => read,
        Err(Why::Row(why)) => return Some(why),
        Err(_) => return None,
    };
    let code = CU_INDEX - 1 + table;
    let name = section_name(code);
    if is_package_of_five(object) && object.count(code) == 0 {
        let other = section_name(if code == CU_INDEX { TU_INDEX } else { CU_INDEX });
        return Some(format!("its object has {other}, and no {name} for it"));
    }
    let index = Index::read(object.section(code)?.bytes, object.encoding.big).ok()?;
    let Some(row) = index.row(identity) else {
        return Some(format!("{name} has no row for identity {identity:#018x}"));
    };
    let mut shared = (ABBREV..=RNGLISTS).filter(|code| !object.bytes(*code).is_empty());
    if refusal == 15 {
        let code = [unit.section].into_iter().chain(shared).find(|code| index.part(row, *code).is_none())?;
        return Some(format!("{name} has no column for {}", section_name(code)));
    }
    let (offset, size) = index.part(row, unit.section)?;
    if (offset, size) != (unit.offset as u64, (unit.end - unit.offset) as u64) {
        return Some(format!("row {row} of {name} names {size} bytes at {offset} of {}", section_name(unit.section)));
    }
    shared.find_map(|code| bad_part(object, code, index.part(row, code)?, &format!("row {row} of {name}")))
}

/// What is wrong with the part of a section that a row names.
fn bad_part(object: &Object, code: u32, (offset, size): (u64, u64), row: &str) -> Option<String> {
    let (has, width) = (object.bytes(code).len() as u64, object.encoding.width() as u64);
    let named = format!("{row} names {size} bytes at {offset} of {}", section_name(code));
    if offset + size > has {
        return Some(format!("{named}, which has {has}"));
    }
    let cut = code == STR_OFFSETS && (offset % width != 0 || size % width != 0);
    cut.then(|| format!("{named}, whose entries have {width}"))
}

//! Damage to good bundles: of the kinds that refusals are about, and any.

use super::objects::{Draft, DraftObject};
use super::random::Random;
use crate::reference::{number, put};

/// Damages a bundle once or twice and writes it.
pub fn damage(random: &mut Random, mut draft: Draft) -> Vec<u8> {
    for _ in 0..random.pick(&[0, 1, 1, 1, 2]) {
        damage_draft(random, &mut draft);
    }
    let mut bytes = draft.bytes();
    if random.one_in(8) {
        damage_bytes(random, &mut bytes);
    }
    bytes
}

fn damage_draft(random: &mut Random, draft: &mut Draft) {
    if draft.objects.is_empty() {
        return;
    }
    let at = random.below(draft.objects.len() as u64) as usize;
    let big = draft.big;
    match random.below(18) {
        0 => damage_word(random, &mut draft.objects[at]),
        1 => {
            let copy = draft.objects[at].clone();
            draft.objects.push(copy);
        }
        2 => drop_section(random, &mut draft.objects[at]),
        3 => add_section(random, &mut draft.objects[at]),
        4 => change_length(random, &mut draft.objects[at]),
        5 => swap_sections(random, &mut draft.objects[at]),
        6 => other_encoding(random, &mut draft.objects[at]),
        7 => clear_identity(random, &mut draft.objects[at]),
        8 => damage_strings(random, big, &mut draft.objects[at]),
        9..=11 => damage_rows(random, big, &mut draft.objects[at]),
        12 | 13 => damage_package5(random, big, &mut draft.objects[at]),
        _ => damage_section(random, big, &mut draft.objects[at]),
    }
}

fn damage_word(random: &mut Random, object: &mut DraftObject) {
    let byte = random.below(4) * 8;
    let value = random.pick(&[0, 2, 3, 4, 5, 6, 8]);
    object.word = object.word & !(0xFF << byte) | value << byte;
    if byte == 24 {
        object.word = object.word & 0x00FF_FFFF | random.pick(&[0x1100_0000, 0x4000_0000, 0x1000_0000]);
    }
}

/// Another good encoding.
fn other_encoding(random: &mut Random, object: &mut DraftObject) {
    object.word ^= random.pick(&[1, 0xC00, 0xC_0000]);
}

/// Zeros where an identity may stand.
fn clear_identity(random: &mut Random, object: &mut DraftObject) {
    let any = random.below(60) as usize;
    let at = random.pick(&[11, 12, 23, 24, any]);
    let code = random.pick(&[1, 1, 2]);
    let units = object.sections.iter_mut().find(|(c, b)| *c == code && b.len() >= at + 8);
    if let Some((_, bytes)) = units {
        bytes[at..at + 8].fill(0);
    }
}

/// A number in the latter half of an index, where column codes, offsets and sizes stand; or two rows that are no longer told apart.
fn damage_rows(random: &mut Random, big: bool, object: &mut DraftObject) {
    let Some((_, bytes)) = object.sections.iter_mut().find(|(c, b)| *c >= 12 && b.len() >= 24) else { return };
    if random.one_in(4) && mix_rows(random, big, bytes).is_some() {
        return;
    }
    let words = bytes.len() as u64 / 4;
    let at = random.between(words / 2, words - 1) as usize * 4;
    let old = number(bytes, at, 4, big).unwrap_or(0);
    let new = random.pick(&[old + 1, old.wrapping_sub(1), old + 4, old ^ 2, 7]);
    let mut field = Vec::new();
    put(&mut field, new, 4, big);
    bytes[at..at + 4].copy_from_slice(&field);
}

/// One row says what another one says, or a slot names another one's row.
fn mix_rows(random: &mut Random, big: bool, index: &mut [u8]) -> Option<()> {
    let field = |at| number(index, at, 4, big).map(|n| n as usize);
    let (columns, units, slots) = (field(4)?, field(8)?, field(12)?);
    let few = columns <= 8 && units.max(slots) <= index.len();
    if units < 2 || !few || index.len() != 16 + 12 * slots + 4 * columns + 8 * units * columns {
        return None;
    }
    let (one, other) = (random.below(units as u64) as usize, random.below(units as u64) as usize);
    let offsets_at = 16 + 12 * slots + 4 * columns;
    if random.one_in(2) {
        for start in [offsets_at, offsets_at + 4 * units * columns] {
            let from = start + 4 * columns * one;
            index.copy_within(from..from + 4 * columns, start + 4 * columns * other);
        }
        return Some(());
    }
    let used: Vec<usize> = (0..slots).map(|i| 16 + 8 * slots + 4 * i).filter(|at| field(*at) != Some(0)).collect();
    if used.is_empty() {
        return None;
    }
    let (from, to) = (random.pick(&used), random.pick(&used));
    index.copy_within(from..from + 4, to);
    Some(())
}

/// Where the cells of str_offsets stand in an index, row by row: the places of offset and size. None where it has no such column.
fn cells_of_strings(big: bool, index: &[u8]) -> Option<Vec<[usize; 2]>> {
    let field = |at| number(index, at, 4, big).map(|n| n as usize);
    let (columns, units, slots) = (field(4)?, field(8)?, field(12)?);
    let few = columns <= 8 && units.max(slots) <= index.len();
    if !few || index.len() != 16 + 12 * slots + 4 * columns + 8 * units * columns {
        return None;
    }
    let codes_at = 16 + 12 * slots;
    let column = (0..columns).find(|column| field(codes_at + 4 * column) == Some(6))?;
    let offset = |row: usize| codes_at + 4 * columns + 4 * (row * columns + column);
    Some((0..units).map(|row| [offset(row), offset(row) + 4 * units * columns]).collect())
}

/// A package of version 5 that no longer is one: a second info or one index fewer, an index of the other form, or parts of str_offsets that
/// no longer lie one behind the other.
fn damage_package5(random: &mut Random, big: bool, object: &mut DraftObject) {
    let is_package = object.sections.iter().any(|(code, _)| *code >= 12);
    if object.word & 0xFF != 5 || !is_package {
        return damage_rows(random, big, object);
    }
    match random.below(8) {
        0 => {
            let code = random.pick(&[12, 13]);
            object.sections.retain(|(c, _)| *c != code);
        }
        1 => {
            let info = object.sections.iter().find(|(code, _)| *code == 1).cloned();
            object.sections.extend(info);
        }
        2 => {
            let form: [u8; 4] = if big { [0, 0, 0, 2] } else { [2, 0, 0, 0] };
            let index = object.sections.iter_mut().find(|(code, bytes)| *code >= 12 && bytes.len() >= 4);
            index.into_iter().for_each(|(_, bytes)| bytes[..4].copy_from_slice(&form));
        }
        _ => move_piece(random, big, object),
    }
}

/// One row's part of str_offsets is longer or shorter, elsewhere, empty or that of another row.
fn move_piece(random: &mut Random, big: bool, object: &mut DraftObject) {
    let width = u64::from(object.word >> 8 & 0xFF);
    let indexes = object.sections.iter_mut().filter(|(code, _)| *code >= 12);
    let found: Vec<_> = indexes
        .filter_map(|(_, bytes)| cells_of_strings(big, bytes).map(|cells| (bytes, cells)))
        .filter(|(_, cells)| !cells.is_empty())
        .collect();
    for (bytes, cells) in found {
        let (cell, other) = (random.pick(&cells), random.pick(&cells));
        let which = random.below(2) as usize;
        let old = number(bytes, cell[which], 4, big).unwrap_or(0);
        let taken = number(bytes, other[which], 4, big).unwrap_or(0);
        let new = random.pick(&[old + width, old.wrapping_sub(width), old + 2 * width, old + 1, 0, taken, 1 << 31]);
        let mut field = Vec::new();
        put(&mut field, new, 4, big);
        bytes[cell[which]..cell[which] + 4].copy_from_slice(&field);
    }
}

/// Entries and strings that no longer belong together.
fn damage_strings(random: &mut Random, big: bool, object: &mut DraftObject) {
    if random.one_in(4) {
        object.sections.retain(|(c, _)| *c != 11);
    }
    for (code, bytes) in &mut object.sections {
        if *code == 11 && random.one_in(2) {
            bytes.truncate(random.below(bytes.len() as u64 + 1) as usize);
        }
        if *code == 6 && bytes.len() >= 4 && random.one_in(2) {
            let at = bytes.len() - if big { 1 } else { 4 };
            bytes[at] = bytes[at].wrapping_add(random.between(1, 30) as u8);
        }
    }
}

fn any_section<'a>(random: &mut Random, object: &'a mut DraftObject) -> Option<&'a mut (u32, Vec<u8>)> {
    let count = object.sections.len() as u64;
    if count == 0 {
        return None;
    }
    object.sections.get_mut(random.below(count) as usize)
}

fn drop_section(random: &mut Random, object: &mut DraftObject) {
    let code = random.pick(&[1, 2, 3, 6, 11, 11, 12, 13]);
    object.sections.retain(|(c, _)| *c != code);
}

/// A second section, or one of a code that may not be there.
fn add_section(random: &mut Random, object: &mut DraftObject) {
    let copied = any_section(random, object).cloned();
    let fresh = (random.between(0, 15) as u32, random.bytes(8));
    let section = if random.one_in(2) { fresh } else { copied.unwrap_or(fresh) };
    let at = random.below(object.sections.len() as u64 + 1) as usize;
    object.sections.insert(at, section);
}

fn change_length(random: &mut Random, object: &mut DraftObject) {
    let most = random.pick(&[1, 4, 8]);
    let more = random.bytes(most);
    if let Some((_, bytes)) = any_section(random, object) {
        if random.one_in(2) {
            bytes.truncate(bytes.len().saturating_sub(more.len().max(1)));
        } else {
            bytes.extend(more);
        }
    }
}

fn swap_sections(random: &mut Random, object: &mut DraftObject) {
    random.shuffle(&mut object.sections);
    if let Some((code, _)) = any_section(random, object) {
        *code = random.between(1, 13) as u32;
    }
}

/// Writes a telling number over a byte or a field of some section, most often of one that is judged.
fn damage_section(random: &mut Random, big: bool, object: &mut DraftObject) {
    let code = random.pick(&[1, 1, 2, 3, 3, 6, 6, 11, 12, 12, 12, 13, 13]);
    let Some((_, bytes)) = object.sections.iter_mut().find(|(c, b)| *c == code && !b.is_empty()) else { return };
    let width = random.pick(&[1, 1, 2, 4, 4, 8]);
    if bytes.len() < width {
        return;
    }
    let fields = (bytes.len() - width) / width + 1;
    // The front holds what is judged first.
    let reach = if random.one_in(3) { fields.min(8) } else { fields };
    let at = random.below(reach as u64) as usize * width;
    let old = number(bytes, at, width, big).unwrap_or(0);
    let telling = [0, 1, 2, 5, 8, 9, 0x16, 0x21, 0x7F, 0x80, 0xFF, 0xFFFF_FFF0, 0xFFFF_FFFF, 1 << 31, u64::MAX];
    let changed = [old.wrapping_add(1), old.wrapping_sub(1), old ^ 0x80, old << 1, old >> 1];
    let new = if random.one_in(2) { random.pick(&telling) } else { random.pick(&changed) };
    let mut field = Vec::new();
    put(&mut field, new, width, big);
    bytes[at..at + width].copy_from_slice(&field);
}

/// Damage below the words' meaning.
fn damage_bytes(random: &mut Random, bytes: &mut Vec<u8>) {
    let at = random.below(bytes.len() as u64) as usize;
    match random.below(6) {
        0 => bytes.truncate(at),
        1 => bytes.truncate(at / 4 * 4),
        2 => bytes.extend([0; 4]),
        3 => bytes[at] ^= 1 << random.below(8),
        4 => bytes[at / 4 * 4 + 3] ^= 1 << random.below(8),
        _ => bytes[at] = random.any() as u8,
    }
}

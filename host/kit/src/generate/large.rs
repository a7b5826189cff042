//! Bundles that are large for a reason.

use super::objects::{Draft, DraftObject};

/// Version 5, offset width 4, address size 8.
const WORD: u32 = 0x1008_0405;

fn unit(identity: u64) -> Vec<u8> {
    let mut unit = vec![16, 0, 0, 0, 5, 0, 5, 8, 0, 0, 0, 0];
    unit.extend(identity.to_le_bytes());
    unit
}

fn one_object(sections: Vec<(u32, Vec<u8>)>) -> Vec<u8> {
    Draft { big: false, objects: vec![DraftObject { word: WORD, sections }] }.bytes()
}

/// Compilation units of these identities, and an abbrev of one byte.
pub fn units_of(identities: impl Iterator<Item = u64>) -> Vec<u8> {
    one_object(vec![(1, identities.flat_map(unit).collect()), (3, vec![0])])
}

/// So many compilation units: above 174,762 the index is too long (19).
pub fn many_units(count: u64) -> Vec<u8> {
    units_of(1..=count)
}

/// Entries of these offsets into one string of so many letters.
fn one_string(letters: u32, offsets: &[u32]) -> Vec<u8> {
    let mut entries = (4 + 4 * offsets.len() as u32).to_le_bytes().to_vec();
    entries.extend([5, 0, 0, 0]);
    entries.extend(offsets.iter().flat_map(|o| o.to_le_bytes()));
    let mut strings = vec![b'a'; letters as usize];
    strings.push(0);
    one_object(vec![(1, unit(1)), (3, Vec::new()), (6, entries), (11, strings)])
}

/// Entries to every suffix of one string of so many letters: from 4,095 on str is too long (19).
pub fn suffixes(letters: u32) -> Vec<u8> {
    one_string(letters, &(0..letters).collect::<Vec<_>>())
}

/// Few entries to suffixes of one string of 30,000 letters that make a str of so many bytes: above 8,388,607 it is too long (19).
pub fn strings_of(bytes: u32) -> Vec<u8> {
    let letters = 30_000;
    let (mut left, mut next) = (bytes, letters);
    let mut offsets = Vec::new();
    while left > next + 1 {
        offsets.push(letters - next);
        left -= next + 1;
        next -= 1;
    }
    offsets.extend((left > 0).then(|| letters - (left - 1)));
    one_string(letters, &offsets)
}

/// A bundle of so many bytes, a multiple of 4 above 44, that is good but for its length (1).
pub fn long_line(bytes: usize) -> Vec<u8> {
    one_object(vec![(1, unit(1)), (3, Vec::new()), (4, vec![b'l'; bytes - 44])])
}

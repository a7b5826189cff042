//! The time of a lookup in a package of 200,000 units: with the index, whose judgement takes time by its slots, and without it, where only
//! the words are read.

use super::measure::shortest;
use barthovin::batch;
use barthovin::ffi;
use kit::generate::{Draft, DraftObject};
use kit::reference::{place, slot_count, Found};
use std::io::{Error, Result};
use std::time::{Duration, Instant};

pub const UNITS: u64 = 200_000;
const SIZE: u32 = 20;

/// A package, its length, and the time of a lookup.
pub struct Lookup {
    pub name: &'static str,
    pub bytes: usize,
    pub took: Duration,
}

fn identity(unit: u64) -> u64 {
    unit.wrapping_mul(0x9E37_79B9_7F4A_7C15) | 1
}

/// Version 5, one column: info, of 20 bytes for each unit.
pub fn index() -> Vec<u8> {
    let identities: Vec<u64> = (1..=UNITS).map(identity).collect();
    let rows = place(&identities, slot_count(identities.len())).expect("a free slot");
    let mut bytes = Vec::new();
    let mut put = |word: u32| bytes.extend(word.to_le_bytes());
    [5, 1, UNITS as u32, rows.len() as u32].into_iter().for_each(&mut put);
    for row in &rows {
        let x = if *row == 0 { 0 } else { identities[*row as usize - 1] };
        put(x as u32);
        put((x >> 32) as u32);
    }
    rows.iter().for_each(|row| put(*row as u32));
    put(1);
    (0..UNITS as u32).for_each(|i| put(i * SIZE));
    (0..UNITS).for_each(|_| put(SIZE));
    bytes
}

/// With its index, or without one.
pub fn package(with_index: bool) -> Vec<u8> {
    let mut sections = vec![(1, vec![7; UNITS as usize * SIZE as usize])];
    if with_index {
        sections.push((12, index()));
    }
    Draft { big: false, objects: vec![DraftObject { word: 0x1008_0405, sections }] }.bytes()
}

fn measured(name: &'static str, with_index: bool) -> Result<Lookup> {
    let package = package(with_index);
    let mut round = 0;
    let took = shortest(|| {
        round += 4_999;
        let clock = Instant::now();
        let found = ffi::lookup(&package, 5, 1, identity(1 + round % UNITS), 1);
        let took = clock.elapsed();
        let right = match found {
            Found::Part { length, .. } => with_index && length == SIZE as usize,
            _ => !with_index && found == Found::Absent(0),
        };
        right.then_some(took).ok_or_else(|| Error::other(format!("the lookup answers {found:?}")))
    })?;
    Ok(Lookup { name, bytes: package.len(), took })
}

pub fn all() -> Result<Vec<Lookup>> {
    Ok(vec![measured("with its index", true)?, measured("without an index: absent", false)?])
}

/// As many questions as a call takes, in the package with its index.
pub fn batch() -> Result<Duration> {
    let package = package(true);
    let unit = |i: usize| identity(1 + i as u64 * 193 % UNITS);
    let questions: Vec<u32> = (0..batch::MOST).flat_map(|i| batch::question(1, 1, unit(i)).expect("it fits")).collect();
    let mut answers = vec![0; batch::ANSWER * batch::MOST];
    shortest(|| {
        answers.fill(0xA5A5_A5A5);
        let clock = Instant::now();
        let told = batch::answer_words(&package, 5, &questions, &mut answers);
        let took = clock.elapsed();
        let right = told == (0, answers.len()) && answers.chunks(4).all(|a| (a[0], a[2]) == (0, SIZE));
        right.then_some(took).ok_or_else(|| Error::other(format!("the questions are answered {told:?}")))
    })
}

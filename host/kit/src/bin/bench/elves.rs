//! The time of reading ELF files: a plain one, and a hostile one of 9 MB with 65,000 section headers.

use super::measure::shortest;
use barthovin::elf;
use kit::generate::{hostile_elf, long_elf};
use std::io::{Error, Result};
use std::time::{Duration, Instant};

/// A file, the lengths of it and of its bundle, and the time.
pub struct Elf {
    pub name: &'static str,
    pub file: usize,
    pub bundle: usize,
    pub took: Duration,
}

fn measured(name: &'static str, file: &[u8]) -> Result<Elf> {
    let (code, needed) = elf::read(file, &mut []);
    let mut output = vec![0; needed];
    let took = shortest(|| {
        output.fill(0xA5);
        let clock = Instant::now();
        let told = elf::read(file, &mut output);
        let took = clock.elapsed();
        (told == (0, needed)).then_some(took).ok_or_else(|| Error::other(format!("{code}, then {told:?} for {name}")))
    })?;
    Ok(Elf { name, file: file.len(), bundle: needed, took })
}

pub fn all() -> Result<Vec<Elf>> {
    Ok(vec![
        measured("one section of 4 MB", &long_elf(1 << 22, 1))?,
        measured("65,000 headers, half of them of relocations, names of 4.7 MB", &hostile_elf(65_000, 4_700_000))?,
    ])
}

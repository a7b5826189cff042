//! Damaged ELF files of both classes through the proved readers, so many of each: damaged_elf NUMBER [SEED]
//!
//! Each answer and every byte of output is compared with the independent reader, in memory full of junk. It fails at the first difference.

use barthovin::elf;
use kit::elf::Class;
use kit::generate::{elf as some_elf, Random};
use kit::lender::Lender;
use std::collections::BTreeMap;
use std::io::{Error, Result};
use std::time::Instant;

/// Most bundles fit; the others are 18.
const OUTPUTS: [usize; 4] = [0, 200, 1_024, 4_096];

fn main() -> Result<()> {
    let words: Vec<String> = std::env::args().collect();
    let number = |i: usize| words.get(i).and_then(|w| w.parse::<u64>().ok());
    let wanted = number(1).ok_or_else(|| Error::other("damaged_elf NUMBER [SEED]"))?;
    let seed = number(2).unwrap_or(1);
    for (class, name) in [(Class::Elf64, "ELF64"), (Class::Elf32, "ELF32")] {
        damaged(class, name, wanted, seed)?;
    }
    Ok(())
}

fn damaged(class: Class, name: &str, wanted: u64, seed: u64) -> Result<()> {
    let (mut random, mut lent) = (Random::new(seed), Lender::new(seed));
    let mut counts = BTreeMap::new();
    let start = Instant::now();
    let read = match class {
        Class::Elf32 => elf::read_32,
        Class::Elf64 => elf::read,
    };
    for _ in 0..wanted {
        let (file, output) = (some_elf(class, &mut random), random.pick(&OUTPUTS));
        let answer = lent.lend(&file, 0, output, |file, _, output| read(file, output)).map_err(Error::other)?;
        let right = kit::elf::read_of(class, &file, output);
        if !answer.agrees(&right) {
            return Err(Error::other(format!("{answer:?}, but wanted {right:?}, for output {output}, {file:02X?}")));
        }
        *counts.entry(answer.code).or_insert(0u64) += 1;
    }
    println!("number    count   (0 is a bundle)");
    counts.iter().for_each(|(number, count)| println!("{number:6} {count:8}"));
    let seconds = start.elapsed().as_secs_f64();
    println!("{wanted} {name} files, each answer and every byte as the independent reader has it; {seconds:.1} seconds, seed {seed}");
    Ok(())
}

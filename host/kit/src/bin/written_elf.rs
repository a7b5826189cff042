//! Generated packages written as ELF files for any machine and read back by the proved functions: written_elf NUMBER [SEED]
//!
//! Each answer and every byte is compared with the independent writer, in memory full of junk, and each file that is read again must give its
//! package. It fails at the first difference.

use barthovin::elf;
use kit::generate::{call, Random};
use kit::lender::Lender;
use kit::reference::{pack, Packed};
use std::io::{Error, Result};
use std::time::Instant;

const NO_UNIT: u32 = 33;

fn main() -> Result<()> {
    let words: Vec<String> = std::env::args().collect();
    let number = |i: usize| words.get(i).and_then(|w| w.parse::<u64>().ok());
    let wanted = number(1).ok_or_else(|| Error::other("written_elf NUMBER [SEED]"))?;
    let seed = number(2).unwrap_or(1);
    let (mut random, mut lent) = (Random::new(seed), Lender::new(seed));
    let (mut packages, mut back) = (0, 0);
    let start = Instant::now();
    while packages < wanted {
        let c = call(&mut random);
        let Packed::Made(package) = pack(&c.bundle, c.work, c.output) else { continue };
        packages += 1;
        let machine = random.between(1, 0xFFFF) as u32;
        let right = kit::elf_writer::write_for(&package, machine, usize::MAX);
        let Packed::Made(file) = &right else { return Err(Error::other(format!("{right:?} for {package:02X?}"))) };
        let write = |package: &[u8], _: &mut [u32], output: &mut [u8]| elf::write_for(package, machine, output);
        let answer = lent.lend(&package, 0, file.len() + 9, write).map_err(Error::other)?;
        if !answer.agrees(&right) {
            return Err(Error::other(format!("{answer:?}, but wanted {right:?}, for {package:02X?}")));
        }
        let answer =
            lent.lend(file, 0, package.len(), |file, _, output| elf::read(file, output)).map_err(Error::other)?;
        match answer.code {
            0 if answer.bytes == package => back += 1,
            NO_UNIT => {}
            _ => return Err(Error::other(format!("read back: {answer:?}, for {package:02X?}"))),
        }
    }
    let seconds = start.elapsed().as_secs_f64();
    println!(
        "{packages} packages written, every byte as the independent writer has it; {back} read back, each the same package, the others without \
         a unit in info; {seconds:.1} seconds, seed {seed}"
    );
    Ok(())
}

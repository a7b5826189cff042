//! Packing in two sittings: two_sittings [--reference] NUMBER [SEED]
//!
//! Generated bundles are split at every object (`kit::sittings`) until NUMBER splits had their premises: the first objects are accepted, their
//! package's object followed by the others is accepted, and all objects are within the length limit. Then all objects together must be
//! accepted and give the same package, byte for byte. The proved packer is asked, through C, in memory that is lent full of junk and judged
//! after each call. It fails at the first difference, and where too few splits have their premises, of either version.
//!
//! With --reference, the reference stands in the place of the proved packer.

use kit::lender::Lender;
use kit::reference::{pack, work_for};
use kit::sittings::run;
use std::process::ExitCode;
use std::time::Instant;

fn main() -> ExitCode {
    match told() {
        Ok(told) => println!("{told}"),
        Err(told) => {
            eprintln!("{told}");
            return ExitCode::FAILURE;
        }
    }
    ExitCode::SUCCESS
}

fn told() -> Result<String, String> {
    let words: Vec<String> = std::env::args().skip(1).collect();
    let by_reference = words.first().is_some_and(|word| word == "--reference");
    let number = |i: usize| words.get(usize::from(by_reference) + i).and_then(|w| w.parse::<u64>().ok());
    let wanted = number(0).ok_or("two_sittings [--reference] NUMBER [SEED]")?;
    let seed = number(1).unwrap_or(1);
    let mut lent = Lender::new(seed);
    let start = Instant::now();
    let tally = match by_reference {
        true => run(wanted, seed, &mut |bundle| Ok(pack(bundle, work_for(bundle), usize::MAX))),
        false => run(wanted, seed, &mut |bundle| lent.pack_whole(bundle).map(|written| written.packed())),
    };
    let (tally, seconds) = (tally?, start.elapsed().as_secs_f64());
    let held = tally.held;
    Ok(format!("{tally}\n{held} splits packed in two sittings, each as all at once; {seconds:.1} seconds, seed {seed}"))
}

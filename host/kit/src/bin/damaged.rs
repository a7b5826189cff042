//! Damaged bundles through the proved packer: damaged NUMBER [SEED]
//!
//! Each answer and every byte of output and work is compared with the reference, in memory full of junk; and what an accepted bundle
//! hands in is looked up in its package. It fails at the first difference, where an answer takes longer than its work allows
//! (`Lender::in_time`), and where none comes for a minute.

use kit::claim::{Claim, Counts};
use kit::generate::{damaged_call, Call, Random};
use kit::lender::Lender;
use kit::reference::pack;
use std::collections::BTreeMap;
use std::io::{Error, Result};
use std::sync::atomic::{AtomicU64, Ordering};
use std::time::{Duration, Instant};

/// Most packages of generated bundles fit; the others are 18, as the reference says too.
const MOST_OUTPUT: usize = 2_048;

/// Few identities that no unit has are asked for, since there are many packages.
const TURNS: usize = 1;

static ANSWERED: AtomicU64 = AtomicU64::new(0);

/// Ends the program where no answer comes for a minute.
fn watch() {
    std::thread::spawn(|| loop {
        let before = ANSWERED.load(Ordering::Relaxed);
        std::thread::sleep(Duration::from_secs(60));
        if ANSWERED.load(Ordering::Relaxed) == before {
            eprintln!("no answer to damaged bundle {before} (counted from 0) within a minute");
            std::process::exit(1);
        }
    });
}

/// The answer's number, where it is the reference's and the claim holds.
fn ask(lent: &mut Lender, claim: &mut Claim, call: &Call) -> std::result::Result<u32, String> {
    let output = call.output.min(MOST_OUTPUT);
    let packing = lent.pack(&call.bundle, call.work, output)?;
    let wanted = pack(&call.bundle, call.work, output);
    if !packing.agrees(&wanted) {
        return Err(format!("{packing:?}, but wanted {wanted:?}"));
    }
    if packing.code == 0 {
        claim.check(&call.bundle, packing.bytes)?;
    }
    let code = packing.code;
    lent.in_time(&call.bundle, call.work, output).map(|()| code)
}

fn run(wanted: u64, seed: u64) -> Result<(BTreeMap<u32, u64>, Counts)> {
    let (mut random, mut lent) = (Random::new(seed), Lender::new(seed));
    let mut claim = Claim::new(seed, TURNS);
    let mut counts = BTreeMap::new();
    for _ in 0..wanted {
        let call = damaged_call(&mut random);
        let number = ask(&mut lent, &mut claim, &call).map_err(|e| Error::other(format!("{e}, for {call:02X?}")))?;
        *counts.entry(number).or_insert(0) += 1;
        ANSWERED.fetch_add(1, Ordering::Relaxed);
    }
    Ok((counts, claim.counts))
}

fn main() -> Result<()> {
    let words: Vec<String> = std::env::args().collect();
    let number = |i: usize| words.get(i).and_then(|w| w.parse::<u64>().ok());
    let wanted = number(1).ok_or_else(|| Error::other("damaged NUMBER [SEED]"))?;
    let seed = number(2).unwrap_or(1);
    watch();
    let start = Instant::now();
    let (counts, claimed) = run(wanted, seed)?;
    println!("number    count   (0 is accepted)");
    counts.iter().for_each(|(number, count)| println!("{number:6} {count:8}"));
    println!("{claimed}");
    let seconds = start.elapsed().as_secs_f64();
    println!("{wanted} damaged bundles, each answer and every byte as the reference has it; {seconds:.1} seconds, seed {seed}");
    Ok(())
}

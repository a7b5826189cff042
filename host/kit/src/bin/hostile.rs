//! Bundles of 28 KB that would be long at work, and honest ones, through the proved packer: hostile
//!
//! Each answer and every byte is compared with the reference. It fails at the first difference, and where a packing takes more than 50 ms
//! of the processor's time, three times. Those that are known not to keep it are named here with the time that each may take; it says of every
//! kind what it keeps, and fails where another takes longer than 50 ms, or one of these longer than its own time.

use kit::generate::{sized, Kind, HOSTILE, KINDS, SHORT};
use kit::lender::Lender;
use kit::reference::{pack, work_for};
use std::io::{Error, Result};
use std::time::Duration;

const MOST: Duration = Duration::from_millis(50);
const TRIES: usize = 3;

/// The kinds that don't keep it yet, and what each may take: about twice what it took when it was named here (`make bench` has its figures). A kind
/// that keeps it leaves the list; no other may join it.
const LATE: [(&str, Duration); 2] = [
    ("units at different offsets of one run, codes whose low bits are zero", Duration::from_millis(160)),
    ("eight tables near the front of one run in turns, codes whose low bits are zero", Duration::from_millis(280)),
];

/// What a kind may take.
fn allowed(name: &str) -> Duration {
    LATE.iter().find(|(late, _)| *late == name).map_or(MOST, |(_, most)| *most)
}

/// The shortest time of some packings, of which the first that keeps 50 ms is the last.
fn time(lent: &mut Lender, bundle: &[u8]) -> std::result::Result<Duration, String> {
    let work = work_for(bundle);
    let wanted = pack(bundle, work, usize::MAX);
    let mut least = Duration::MAX;
    for _ in 0..TRIES {
        let packing = lent.pack_whole(bundle)?;
        if !packing.agrees(&wanted) {
            return Err(format!("answered {} where the reference answers otherwise", packing.code));
        }
        least = least.min(lent.took());
        if least <= MOST {
            break;
        }
    }
    Ok(least)
}

/// What is said of a kind.
fn verdict(name: &str, took: Duration) -> String {
    match (took <= MOST, allowed(name)) {
        (true, MOST) => format!("keeps {MOST:?}"),
        (true, _) => format!("keeps {MOST:?}, and may leave the list of those that don't"),
        (false, MOST) => format!("does NOT keep {MOST:?}"),
        (false, most) if took <= most => format!("does not keep {MOST:?}, as is known; {most:?} are allowed"),
        (false, most) => format!("does NOT keep even {most:?}"),
    }
}

fn main() -> Result<()> {
    let mut lent = Lender::new(1);
    let mut slow = Vec::new();
    let kinds: Vec<&Kind> = HOSTILE.iter().map(|hostile| &hostile.kind).chain(&KINDS).collect();
    if let Some((name, _)) = LATE.iter().find(|(name, _)| kinds.iter().all(|kind| kind.name != *name)) {
        return Err(Error::other(format!("no kind is called {name}")));
    }
    for kind in kinds {
        let Kind { name, items, .. } = kind;
        let (bundle, count) = sized(kind, SHORT);
        let took = time(&mut lent, &bundle).map_err(|e| Error::other(format!("{name}: {e}")))?;
        println!("{name}: {} bytes, {count} {items}, {took:.2?}: {}", bundle.len(), verdict(name, took));
        if took > allowed(name) {
            slow.push(*name);
        }
    }
    match slow.is_empty() {
        true => Ok(()),
        false => Err(Error::other(format!("longer than is allowed: {}", slow.join("; ")))),
    }
}

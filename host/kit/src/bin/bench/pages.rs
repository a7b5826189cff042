//! Whether this process, and those that it starts, may have huge pages. Linux.

use std::io::{Error, Result};

/// What the system may give: huge pages where they are asked for, as the command does, or small ones alone, as where it has no others.
#[derive(Clone, Copy, Debug, PartialEq, Eq)]
pub enum Pages {
    Huge,
    Small,
}

extern "C" {
    fn prctl(what: i32, first: u64, second: u64, third: u64, fourth: u64) -> i32;
}

const NO_HUGE_PAGES: i32 = 41;

pub fn allow(pages: Pages) -> Result<()> {
    let off = u64::from(pages == Pages::Small);
    // It sets a mark of this process, and touches no memory.
    match unsafe { prctl(NO_HUGE_PAGES, off, 0, 0, 0) } {
        0 => Ok(()),
        _ => Err(Error::last_os_error()),
    }
}

/// What the system does with huge pages: `madvise` gives them where they are asked for.
pub fn told() -> String {
    let told = std::fs::read_to_string("/sys/kernel/mm/transparent_hugepage/enabled").unwrap_or_default();
    let chosen = told.split('[').nth(1).and_then(|rest| rest.split(']').next());
    chosen.unwrap_or("unknown").to_string()
}

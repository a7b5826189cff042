//! The static library is for every x86-64: no instruction that came later is in it.

use std::process::Command;

const LIBRARY: &str = env!("BARTHOVIN_STATIC_LIBRARY");

/// Beginnings of what came with SSE3, SSSE3, SSE4.1, SSE4.2 and POPCNT, as objdump writes them; with AVX all begin with v.
const LATER: [&str; 34] = [
    "addsub",
    "hadd",
    "hsub",
    "lddqu",
    "movddup",
    "movshdup",
    "movsldup",
    "pabs",
    "palignr",
    "phadd",
    "phminpos",
    "phsub",
    "pmaddubsw",
    "pmulhrsw",
    "pshufb",
    "psign",
    "blend",
    "dpp",
    "extractps",
    "insertps",
    "mpsadbw",
    "packusdw",
    "pblend",
    "pcmpeqq",
    "pcmpestr",
    "pcmpgtq",
    "pcmpistr",
    "pextr",
    "pinsr",
    "pmovsx",
    "pmovzx",
    "pmuldq",
    "pmulld",
    "ptest",
];
const MORE: [&str; 12] =
    ["pmaxsb", "pmaxsd", "pmaxud", "pmaxuw", "pminsb", "pminsd", "pminud", "pminuw", "round", "popcnt", "crc32", "v"];
/// Those of them that SSE2 has, since one word stands for several widths.
const OLDER: [&str; 2] = ["pextrw", "pinsrw"];

#[test]
fn the_library_needs_nothing_newer_than_sse2() {
    let told = Command::new("objdump").args(["-d", "--no-show-raw-insn", LIBRARY]).output().expect("objdump");
    let told = String::from_utf8_lossy(&told.stdout).into_owned();
    let words: Vec<&str> = told.lines().filter_map(|line| line.split('\t').nth(1)?.split_whitespace().next()).collect();
    assert!(words.len() > 1_000, "objdump shows {} instructions", words.len());
    let is_later = |word: &&&str| {
        let begins = |later: &&str| word.starts_with(later);
        (LATER.iter().any(|later| begins(&later)) || MORE.iter().any(|later| begins(&later))) && !OLDER.contains(word)
    };
    let mut later: Vec<&&str> = words.iter().filter(is_later).collect();
    later.sort();
    later.dedup();
    assert!(later.is_empty(), "{LIBRARY} needs {later:?}: build it with `rt lib --cpu x86-64`, as `make library` does");
}

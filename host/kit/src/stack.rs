//! How much stack a call of the proved functions takes.
//!
//! A thread's free stack is painted, the call is made, and the deepest byte that isn't paint any more says how far it went.

use crate::generate::{call, sized, Random, HOSTILE, KINDS, SHORT};
use crate::reference::WORK_FOR_A_WORD;
use barthovin::answer::Asked;
use barthovin::{batch, elf, ffi, join, profile, sheet};
use std::thread;

const STACK: usize = 1 << 20;
const PAINTED: usize = 512 << 10;
const PAINT: u8 = 0xC3;
/// What the painter itself stands on is not painted: less is not told from it.
const PAINTER: usize = 1 << 10;

/// The bytes of stack that a call took; what Rust puts between is counted too, some hundred bytes at most.
pub fn taken(call: impl FnOnce() + Send) -> usize {
    let measured = || {
        let top = painted();
        call();
        deepest(top)
    };
    thread::scope(|scope| {
        let started = thread::Builder::new().stack_size(STACK).spawn_scoped(scope, measured);
        started.expect("a thread").join().expect("the call ends")
    })
}

/// Paints what is below its own frame; where that is. Nothing that is in use stands there: the thread's frames are above it, and the stack is twice as
/// long.
#[inline(never)]
fn painted() -> usize {
    let mark = 0_u8;
    let top = std::hint::black_box(&mark) as *const u8 as usize;
    let mut depth = PAINTER;
    while depth < PAINTED {
        unsafe { ((top - depth) as *mut u8).write_volatile(PAINT) };
        depth += 1;
    }
    top
}

#[inline(never)]
fn deepest(top: usize) -> usize {
    let is_changed = |depth: &usize| unsafe { ((top - depth) as *const u8).read_volatile() } != PAINT;
    (PAINTER..PAINTED).rev().find(is_changed).unwrap_or(PAINTER)
}

/// An entry by its name in `barthovin.h`, and the most that it took.
pub struct Entry {
    pub name: &'static str,
    pub bytes: usize,
}

/// What packing and asking is done with: bundles of all kinds, good and damaged.
fn bundles(seed: u64, count: usize) -> Vec<Vec<u8>> {
    let mut random = Random::new(seed);
    let kinds = HOSTILE.iter().map(|hostile| &hostile.kind).chain(&KINDS);
    let mut bundles: Vec<Vec<u8>> = kinds.map(|kind| sized(kind, SHORT).0).collect();
    bundles.extend((0..count).map(|_| call(&mut random).bundle));
    bundles
}

struct Measured<'a> {
    entries: Vec<Entry>,
    bundle: &'a [u8],
}

impl Measured<'_> {
    fn note(&mut self, name: &'static str, call: impl FnOnce() + Send) {
        let bytes = taken(call);
        match self.entries.iter_mut().find(|entry| entry.name == name) {
            Some(entry) => entry.bytes = entry.bytes.max(bytes),
            None => self.entries.push(Entry { name, bytes }),
        }
    }

    fn packing(&mut self) -> Vec<u8> {
        let bundle = self.bundle;
        let mut work = vec![0; bundle.len() / 4 * WORK_FOR_A_WORD];
        let mut output = vec![0; 4 * bundle.len() + 4_096];
        let mut length = 0;
        self.note("barthovin_pack", || length = ffi::pack_counted(bundle, &mut work, &mut output).1);
        let mut other = vec![0; output.len()];
        for (name, asked) in
            [("barthovin_pack_and_look_up", Asked::Section(1)), ("barthovin_pack_and_look_up_string", Asked::Entry(0))]
        {
            self.note(name, || {
                let _ = ffi::pack_and_look_up(bundle, &mut work, &mut other, 5, 1, 1, asked);
            });
        }
        self.note("barthovin_pack_small", || {
            ffi::pack_small(bundle, &mut other);
        });
        output.truncate(length);
        output
    }

    fn asking(&mut self, package: &[u8]) {
        let version = if package.get(4) == Some(&5) { 5 } else { 2 };
        let questions: Vec<u32> = (0..40).flat_map(|i| batch::question(1, 1, i).expect("it fits")).collect();
        let (mut answers, mut page) = (vec![0; 160], vec![0; 1 << 16]);
        let mut file = vec![0; package.len() + 2_048];
        self.note("barthovin_lookup", || {
            ffi::lookup(package, version, 1, 1, 1);
        });
        self.note("barthovin_lookup_string", || {
            ffi::lookup_string(package, version, 1, 1, 0);
        });
        self.note("barthovin_lookup_batch", || {
            batch::answer_words(package, version, &questions, &mut answers);
        });
        self.note("barthovin_sheet", || {
            sheet::write(package, &mut page);
        });
        self.note("barthovin_archive_profile", || {
            profile::profile(package);
        });
        self.note("barthovin_archive_profile_conditions", || {
            profile::conditions(package);
        });
        self.note("barthovin_write_elf", || {
            elf::write(package, 62, &mut file);
        });
        let mut bundle = vec![0; file.len()];
        self.note("barthovin_read_elf", || {
            elf::read(&file, &mut bundle);
        });
        self.files_of_others(package, &mut file, &mut bundle);
    }
}

impl Measured<'_> {
    /// Files of 32 bits and of any machine, opened and joined.
    fn files_of_others(&mut self, package: &[u8], file: &mut [u8], bundle: &mut [u8]) {
        const ARM: u32 = 40;
        self.note("barthovin_write_elf_for", || {
            elf::write_for(package, ARM, file);
        });
        self.note("barthovin_read_elf32", || {
            elf::read_32(file, bundle);
        });
        self.note("barthovin_open", || {
            join::open(file, bundle);
        });
        self.note("barthovin_join", || {
            join::join(bundle, 0, package);
        });
    }
}

/// The most that each entry took over so many generated bundles, and those of each kind.
pub fn of_entries(seed: u64, count: usize) -> Vec<Entry> {
    let mut entries = Vec::new();
    for bundle in bundles(seed, count) {
        let mut measured = Measured { entries, bundle: &bundle };
        let package = measured.packing();
        measured.asking(&package);
        entries = measured.entries;
    }
    entries
}

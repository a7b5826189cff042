//! The proved lookups, through C, answer as the vectors say and as the reference does: on short packages of every kind, on
//! every change of a byte of small ones, and on damaged ones without end.

use barthovin::answer::Asked;
use barthovin::ffi;
use kit::generate::{call, question, Question, Random};
use kit::reference::{self, pack, Found, Packed};
use kit::vectors::{parse_all, Vector};

fn answer(q: &Question) -> Found {
    match q.asked {
        Asked::Section(code) => ffi::lookup(&q.package, q.version, q.table, q.identity, code),
        Asked::Entry(entry) => ffi::lookup_string(&q.package, q.version, q.table, q.identity, entry),
    }
}

fn expected(q: &Question) -> Found {
    match q.asked {
        Asked::Section(code) => reference::lookup(&q.package, q.version, q.table, q.identity, code),
        Asked::Entry(entry) => reference::lookup_string(&q.package, q.version, q.table, q.identity, entry),
    }
}

/// The two agree on a question; which kind of answer it was.
fn agree(q: &Question) -> Found {
    let (got, wanted) = (answer(q), expected(q));
    assert_eq!(got, wanted, "for {q:?}");
    got
}

fn replay(text: &str, lines: usize) {
    let vectors = parse_all(text).expect("a line that is no vector");
    assert_eq!(vectors.len(), lines);
    for vector in &vectors {
        let (got, wanted) = match vector {
            Vector::Lookup { package, version, table, identity, section, answer } => {
                (ffi::lookup(package, *version, *table, *identity, *section), answer)
            }
            Vector::String { package, version, table, identity, entry, answer } => {
                (ffi::lookup_string(package, *version, *table, *identity, *entry), answer)
            }
            Vector::Pack { .. } => continue,
        };
        assert_eq!(got, *wanted, "for {vector:?}");
    }
}

#[test]
fn vectors() {
    replay(include_str!("vectors/lookup.txt"), 314);
}

#[test]
fn directed_vectors() {
    replay(include_str!("vectors/lookup-directed.txt"), 381);
}

fn ask_all(package: &[u8], questions: &[(u32, u32, u64, Asked)]) {
    for (version, table, identity, asked) in questions {
        let asked = asked.clone();
        agree(&Question { package: package.to_vec(), version: *version, table: *table, identity: *identity, asked });
    }
}

fn words(numbers: &[u32]) -> Vec<u8> {
    numbers.iter().flat_map(|n| n.to_le_bytes()).collect()
}

#[test]
fn every_short_string() {
    let questions = [(5, 1, 1, Asked::Section(1)), (2, 2, 1, Asked::Entry(0))];
    ask_all(&[], &questions);
    for a in 0..=255u8 {
        ask_all(&[a], &questions);
        for b in 0..=255u8 {
            ask_all(&[a, b], &questions);
            // A package of two or three words, but for two bytes.
            ask_all(&words(&[0xF000_0000 | u32::from(a), 0x3000_0002 ^ u32::from(b) << 24]), &questions);
            ask_all(&words(&[0xF000_0001, 0x1000_0000 | u32::from(a) << 8 | u32::from(b), 0x3000_0003]), &questions);
            let section = 0x2000_0000 | u32::from(a) << 20 | u32::from(b);
            ask_all(&words(&[0xF000_0000, 0x1008_0405, section, 0, 0x3000_0005]), &questions);
        }
    }
}

/// The example of FORMAT 14: one version 5 unit of identity 1, with a part of info and of abbrev.
fn example() -> Vec<u8> {
    let bundle = [0xF000_0000, 0x1008_0405, 0x2080_0014, 0x10, 0x0805_0005, 0, 1, 0, 0x2180_0001, 0, 0x3000_000B];
    match pack(&words(&bundle), 220, 112) {
        Packed::Made(package) => package,
        other => panic!("{other:?}"),
    }
}

#[test]
fn every_change_of_a_byte() {
    let package = example();
    let questions = [
        (5, 1, 1, Asked::Section(1)),
        (5, 1, 1, Asked::Section(3)),
        (5, 1, 1, Asked::Section(4)),
        (5, 1, 2, Asked::Section(1)),
        (2, 1, 1, Asked::Section(1)),
        (5, 2, 1, Asked::Section(1)),
        (5, 1, 1, Asked::Entry(0)),
    ];
    ask_all(&package, &questions);
    for at in 0..package.len() {
        for value in 0..=255 {
            let mut changed = package.clone();
            changed[at] = value;
            ask_all(&changed, &questions);
        }
    }
}

#[test]
fn every_front_of_a_package() {
    let package = example();
    for length in 0..=package.len() {
        ask_all(&package[..length], &[(5, 1, 1, Asked::Section(1)), (5, 1, 1, Asked::Entry(0))]);
    }
}

/// A package made from a good bundle.
fn some_package(random: &mut Random) -> Vec<u8> {
    loop {
        let c = call(random);
        if let Packed::Made(package) = pack(&c.bundle, c.work, c.output) {
            return package;
        }
    }
}

/// Damaged packages, each asked one question, until there are so many; how often each code was answered.
fn damaged(seed: u64, count: usize) -> [usize; 32] {
    let mut random = Random::new(seed);
    let mut told = [0; 32];
    let mut done = 0;
    while done < count {
        let package = some_package(&mut random);
        for _ in 0..200 {
            let q = question(&mut random, &package);
            if q.package != package {
                done += 1;
            }
            let code = match agree(&q) {
                Found::Part { .. } => 0,
                Found::Absent(_) => 1,
                Found::Refused(number) => number as usize,
            };
            told[code] += 1;
        }
    }
    told
}

/// More than a million in all; every answer occurs.
fn damaged_packages(seed: u64) {
    let told = damaged(seed, 510_000);
    for code in [0, 1, 21, 22, 23, 24, 25, 26] {
        assert!(told[code] > 0, "{code} never occurs: {told:?}");
    }
}

#[test]
fn damaged_packages_one() {
    damaged_packages(1);
}

#[test]
fn damaged_packages_two() {
    damaged_packages(2);
}

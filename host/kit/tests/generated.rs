//! The generator reaches every refusal and every answer of the lookups; 17 is not used.

use barthovin::answer::Asked;
use kit::generate::{call, good, long_line, many_units, question, sized, suffixes, Random, HOSTILE, SHORT};
use kit::reference::{lookup, lookup_string, pack, work_for, Found, Packed};
use std::collections::BTreeMap;

fn packed_number(answer: &Packed) -> u32 {
    match answer {
        Packed::Refused(number) => *number,
        Packed::Short(_) => 18,
        Packed::Made(_) => 0,
    }
}

#[test]
fn packing_reaches_every_number() {
    let mut random = Random::new(1);
    let mut counts = BTreeMap::new();
    for _ in 0..30_000 {
        let call = call(&mut random);
        let answer = pack(&call.bundle, call.work, call.output);
        *counts.entry(packed_number(&answer)).or_insert(0) += 1;
    }
    println!("{counts:?}");
    for number in (0..=16).chain([18, 34]) {
        let reached = counts.get(&number).copied().unwrap_or(0);
        assert!(reached >= 50, "{number} was reached {reached} times: {counts:?}");
    }
}

fn whole(bundle: &[u8]) -> u32 {
    packed_number(&pack(bundle, work_for(bundle), 1 << 27))
}

#[test]
fn large_bundles_reach_1_and_19() {
    assert_eq!(whole(&long_line(4_194_304)), 0);
    assert_eq!(whole(&long_line(4_194_308)), 1);
    assert_eq!(whole(&suffixes(4_094)), 0);
    assert_eq!(whole(&suffixes(4_095)), 19);
    // Columns info and abbrev: with 262,144 slots the index has 5,941,944 bytes, with 524,288 it would have 9,087,688.
    assert_eq!(whole(&many_units(174_762)), 0);
    assert_eq!(whole(&many_units(174_763)), 19);
}

#[test]
fn hostile_bundles_are_answered_as_their_kinds_say() {
    for hostile in &HOSTILE {
        let (bundle, _) = sized(&hostile.kind, SHORT);
        assert!(bundle.len() * 4 > SHORT * 3, "{}: {} bytes", hostile.kind.name, bundle.len());
        assert_eq!(whole(&bundle), hostile.answer, "{}", hostile.kind.name);
    }
}

#[test]
fn looking_up_reaches_every_answer() {
    let mut random = Random::new(2);
    let mut counts = BTreeMap::new();
    for _ in 0..30_000 {
        let call = call(&mut random);
        let Packed::Made(package) = pack(&call.bundle, call.work, call.output) else { continue };
        let q = question(&mut random, &package);
        let found = match q.asked {
            Asked::Section(code) => lookup(&q.package, q.version, q.table, q.identity, code),
            Asked::Entry(entry) => lookup_string(&q.package, q.version, q.table, q.identity, entry),
        };
        let name = match found {
            Found::Refused(number) => format!("{number}"),
            Found::Absent(looks) => format!("absent {}", looks.min(3)),
            Found::Part { length, looks, .. } => format!("part {} {}", length.min(1), looks.min(3)),
        };
        *counts.entry(name).or_insert(0) += 1;
    }
    println!("{counts:?}");
    for name in
        ["21", "22", "23", "24", "25", "26", "absent 0", "absent 1", "absent 2", "part 0 1", "part 1 1", "part 1 2"]
    {
        let reached = counts.get(name).copied().unwrap_or(0);
        assert!(reached >= 10, "{name} was reached {reached} times: {counts:?}");
    }
}

#[test]
fn good_bundles_are_accepted() {
    let mut random = Random::new(3);
    for _ in 0..20_000 {
        let bundle = good(&mut random).bytes();
        assert_eq!(whole(&bundle), 0, "{bundle:02X?}");
    }
}

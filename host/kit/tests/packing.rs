//! The proved packers, through C, answer as the vectors say and as the reference does: the answer, every byte of the output and every
//! word of work, whatever both held before, and nothing around them is touched. In every package that is made, what its bundle hands in
//! is found, and nothing else.

use barthovin::ffi;
use kit::claim::Claim;
use kit::generate::{call, long_line, many_units, reversed_rows, rows_beside_one_place, rows_of_one_place};
use kit::generate::{pieces_of_one_place, reversed_pieces, rows_of_one_piece};
use kit::generate::{strings_of, suffixes, Call, Random};
use kit::lender::{Lender, Written};
use kit::reference::{self, Packed, Skipped, LONGEST_BUNDLE, WORK_FOR_A_WORD};
use kit::vectors::{parse_all, words, Vector};

/// The small packer's limit and work.
const SMALL_BUNDLE: usize = 1024;
const SMALL_WORK: usize = 5_120;

/// Few identities that no unit has are asked for here, since there are many packages; tests/claim.rs asks for more.
const TURNS: usize = 1;
/// The few bundles above this length, none of them random, are asked about so many of their units: a lookup judges the whole package.
const LONG_BUNDLE: usize = 1 << 16;
const UNITS_OF_LONG: usize = 8;

/// A call through C. Without work it is the small packer's.
fn packed<'l>(lent: &'l mut Lender, bundle: &[u8], work: Option<usize>, output: usize) -> Written<'l> {
    let answer = match work {
        Some(work) => lent.pack(bundle, work, output),
        None => lent.pack_small(bundle, output),
    };
    answer.unwrap_or_else(|e| panic!("{e}, for work {work:?}, output {output}, {:02X?}", front(bundle)))
}

/// So much of a bundle as is shown.
fn front(bundle: &[u8]) -> &[u8] {
    &bundle[..bundle.len().min(4096)]
}

/// How often each number was answered, 0 for a package.
struct Counts([usize; 35]);

impl Counts {
    fn assert_reached(&self, name: &str, numbers: impl Iterator<Item = usize>) {
        println!("{name}: {:?}", self.0);
        for number in numbers {
            assert!(self.0[number] >= 100, "{number} was reached {} times: {:?}", self.0[number], self.0);
        }
    }
}

/// Both packers over one source of junk, each call compared with the answer that is wanted.
struct Checks {
    lent: Lender,
    counts: Counts,
    /// In all packages together.
    skipped: Skipped,
    claim: Claim,
}

impl Checks {
    fn new(seed: u64) -> Checks {
        let (lent, claim) = (Lender::new(seed), Claim::new(seed, TURNS));
        Checks { lent, counts: Counts([0; 35]), skipped: Skipped::default(), claim }
    }

    /// The answer, and what was skipped where that is wanted too.
    fn compare(
        &mut self,
        bundle: &[u8],
        work: Option<usize>,
        output: usize,
        (answer, skipped): (Packed, Option<Skipped>),
    ) {
        let left = packed(&mut self.lent, bundle, work, output);
        let told = (left.code, left.length, left.skipped);
        let counted = Skipped { repeats: left.skipped.repeats, namesakes: left.skipped.namesakes };
        let agrees = left.agrees(&answer) && skipped.is_none_or(|skipped| skipped == counted);
        assert!(agrees, "{told:?} for work {work:?}, output {output}, {:02X?}", front(bundle));
        self.skipped.repeats += counted.repeats;
        self.skipped.namesakes += counted.namesakes;
        self.counts.0[left.code as usize] += 1;
        if left.code == 0 {
            let most = if bundle.len() <= LONG_BUNDLE { usize::MAX } else { UNITS_OF_LONG };
            let claimed = self.claim.check_some(bundle, left.bytes, most);
            claimed.unwrap_or_else(|e| panic!("{e}, for {:02X?}", front(bundle)));
        }
    }

    /// The packer, compared with the reference.
    fn pack(&mut self, bundle: &[u8], work: usize, output: usize) {
        let (answer, skipped) = reference::pack_counted(bundle, work, output);
        self.compare(bundle, Some(work), output, (answer, Some(skipped)));
    }

    /// The small packer, compared with the reference below its limit.
    fn pack_small(&mut self, bundle: &[u8], output: usize) {
        let (answer, skipped) = match bundle.len() {
            0..=SMALL_BUNDLE => reference::pack_counted(bundle, SMALL_WORK, output),
            _ => (Packed::Refused(1), Skipped::default()),
        };
        self.compare(bundle, None, output, (answer, Some(skipped)));
    }
}

fn needed(bundle: &[u8]) -> usize {
    bundle.len() / 4 * WORK_FOR_A_WORD
}

fn bytes(numbers: &[u32]) -> Vec<u8> {
    numbers.iter().flat_map(|n| n.to_le_bytes()).collect()
}

fn replay(text: &str, lines: usize) {
    let mut checks = Checks::new(10);
    let vectors = parse_all(text).expect("a line that is no vector");
    assert_eq!(vectors.len(), lines);
    for vector in vectors {
        if let Vector::String { package, version, table, identity, entry, answer } = &vector {
            assert_eq!(ffi::lookup_string(package, *version, *table, *identity, *entry), *answer, "{vector:?}");
            continue;
        }
        let Vector::Pack { bundle, work, output, answer, skipped } = vector else { panic!("{vector:?}") };
        checks.compare(&bundle, Some(work), output, (answer.clone(), skipped));
        // The small packer has work enough for what it takes, so that only 2 can differ.
        if bundle.len() <= SMALL_BUNDLE && answer != Packed::Refused(2) {
            checks.compare(&bundle, None, output, (answer, skipped));
        }
    }
}

#[test]
fn vectors() {
    replay(include_str!("vectors/pack-inputs.txt"), 449);
}

#[test]
fn directed_vectors() {
    replay(include_str!("vectors/pack-directed.txt"), 265);
}

#[test]
fn vectors_with_repeats_and_namesakes() {
    replay(include_str!("vectors/pack-counted.txt"), 437);
}

/// Some length of work or output: none, one less than needed, as needed, more.
fn around(random: &mut Random, needed: usize) -> usize {
    let more = needed + 1 + random.below(70) as usize;
    random.pick(&[0, needed / 2, needed.saturating_sub(1), needed, needed, more])
}

#[test]
fn generated_calls() {
    let mut checks = Checks::new(11);
    let mut random = Random::new(12);
    for _ in 0..50_000 {
        let Call { bundle, work, output } = call(&mut random);
        checks.pack(&bundle, work, output.min(1 << random.between(9, 16)));
    }
    checks.counts.assert_reached("packing generated calls", (0..=16).chain([18, 34]));
    println!("skipped: {:?}", checks.skipped);
    assert!(checks.skipped.repeats >= 100 && checks.skipped.namesakes >= 100, "{:?}", checks.skipped);
}

#[test]
fn lengths_of_work_and_output() {
    let mut checks = Checks::new(13);
    let mut random = Random::new(14);
    for _ in 0..10_000 {
        let bundle = call(&mut random).bundle;
        let work = around(&mut random, needed(&bundle));
        checks.pack(&bundle, work, 600);
        let Packed::Made(package) = reference::pack(&bundle, needed(&bundle), usize::MAX) else { continue };
        let output = around(&mut random, package.len());
        checks.pack(&bundle, needed(&bundle), output);
        checks.pack_small(&bundle, output);
        checks.compare(&bundle, Some(needed(&bundle)), package.len() - 1, (Packed::Short(package.len()), None));
        checks.compare(&bundle, Some(needed(&bundle)), package.len(), (Packed::Made(package), None));
    }
    checks.counts.assert_reached("lengths of work and output", [0, 2, 18].into_iter());
}

#[test]
fn generated_calls_of_the_small_packer() {
    let mut checks = Checks::new(15);
    let mut random = Random::new(16);
    for _ in 0..80_000 {
        let Call { bundle, output, .. } = call(&mut random);
        checks.pack_small(&bundle, output.min(1 << random.between(9, 16)));
    }
    checks.counts.assert_reached("packing generated calls, small", [0, 1, 18, 34].into_iter().chain(3..=16));
    assert_eq!(checks.counts.0[2], 0, "the small packer has work enough");
}

#[test]
fn lengths_around_the_small_limit() {
    let mut checks = Checks::new(17);
    for length in (48..=1200).step_by(4) {
        let bundle = long_line(length);
        let wanted = if length <= SMALL_BUNDLE { 0 } else { 1 };
        let before = checks.counts.0[wanted];
        checks.pack_small(&bundle, 1 << 16);
        assert_eq!(checks.counts.0[wanted], before + 1, "{length}");
        checks.pack(&bundle, needed(&bundle), 1 << 12);
        for cut in 1..4 {
            checks.pack_small(&bundle[..length - cut], 1 << 12);
        }
    }
}

/// Version 4, one object, nothing but its strings: so many entries, to suffixes of one string of so many letters.
fn nothing_but_strings(entries: u32, letters: u32) -> Vec<u8> {
    let mut offsets: Vec<u32> = vec![0x2300_0000 + 4 * entries];
    offsets.extend(0..entries);
    let mut strings = (0x2580_0000 + letters + 1).to_le_bytes().to_vec();
    strings.resize(4 + letters as usize, b'a');
    strings.resize(4 * (strings.len() / 4 + 1), 0);
    let mut bundle = bytes(&[0xF000_0000, 0x1008_0404, 0x2080_0000, 0x2180_0000]);
    bundle.extend(bytes(&offsets));
    bundle.extend(strings);
    let words = bundle.len() as u32 / 4 + 1;
    bundle.extend((0x3000_0000 + words).to_le_bytes());
    bundle
}

/// docs/DECISIONS.md, "The small packer's output": 65,536 bytes are always enough.
#[test]
fn the_small_output_is_long_enough() {
    let mut checks = Checks::new(29);
    // As many entries as leave the letters that fill 1,024 bytes up; from 199 on there are more entries than suffixes.
    let mut longest = 0;
    for entries in 1..199 {
        let bundle = nothing_but_strings(entries, 995 - 4 * entries);
        assert_eq!(bundle.len(), SMALL_BUNDLE);
        checks.pack_small(&bundle, 1 << 16);
        let Packed::Made(package) = reference::pack(&bundle, SMALL_WORK, 1 << 16) else { panic!("{entries}") };
        longest = longest.max(package.len());
    }
    // The worst one known, of 111 entries: 55,167 bytes of strings.
    assert_eq!(longest, 4 * 5 + 4 * 111 + 55_168);
    // As many units as there is room for, whose indexes are the longest.
    checks.pack_small(&many_units(49), 1 << 16);
    assert_eq!(checks.counts.0[0], 199, "all of them are packed");
}

#[test]
fn the_same_over_any_junk() {
    let (mut one, mut other) = (Lender::new(18), Lender::new(19));
    let mut random = Random::new(20);
    let mut claim = Claim::new(20, TURNS);
    for _ in 0..5_000 {
        let Call { bundle, work, .. } = call(&mut random);
        let output = random.between(0, 1000) as usize;
        for work in [Some(work), None] {
            let left = packed(&mut one, &bundle, work, output);
            let again = packed(&mut other, &bundle, work, output);
            assert_eq!((left.code, left.length, left.bytes), (again.code, again.length, again.bytes));
            if left.code == 0 {
                claim.check(&bundle, left.bytes).unwrap_or_else(|e| panic!("{e}, for {bundle:02X?}"));
            }
        }
    }
}

/// The example of FORMAT 14.
const EXAMPLE: &str = "F0000000 10080405 20800014 10 8050005 0 1 0 21800001 0 3000000B";

/// A version 4 object that is a package: one unit, whose identity stands in its root, an abbrev of 9 bytes and an index.
const INPUT: &str = "F0000000 10080404 20800014 10 4 1080000 1 0 21800009 B1001101 742 0 26000040
    2 2 1 2 0 0 1 0 0 1 1 3 0 0 14 9 3000001E";

#[test]
fn every_change_of_a_byte() {
    let mut checks = Checks::new(21);
    for text in [EXAMPLE, INPUT] {
        let bundle = words(text).expect("words");
        for at in 0..bundle.len() {
            for value in 0..=255 {
                let mut changed = bundle.clone();
                changed[at] = value;
                checks.pack(&changed, needed(&bundle), 160);
            }
        }
    }
    checks.counts.assert_reached("every change of a byte", [0, 3, 4, 10, 11, 12, 15, 16].into_iter());
}

#[test]
fn every_short_bundle() {
    let mut checks = Checks::new(22);
    let example = words(EXAMPLE).expect("words");
    for length in 0..=example.len() {
        checks.pack(&example[..length], 220, 112);
    }
    for a in 0..=255 {
        checks.pack(&[a as u8], 20, 8);
        for b in 0..=255 {
            checks.pack(&bytes(&[0xF000_0000 | a, 0x3000_0002 ^ b << 24]), 40, 8);
            checks.pack(&bytes(&[0xF000_0001, 0x1000_0000 | a << 8 | b, 0x3000_0003]), 60, 12);
            checks.pack(&bytes(&[0xF000_0000, 0x1008_0405, 0x2000_0000 | a << 20 | b, 0, 0x3000_0005]), 100, 20);
        }
    }
    checks.counts.assert_reached("every short bundle", [1, 3, 4].into_iter());
}

/// 1, whatever else is wrong.
#[test]
fn lengths_that_are_refused() {
    let mut checks = Checks::new(23);
    let mut random = Random::new(24);
    for length in (0..8).chain((9..400).filter(|n| n % 4 != 0)) {
        let bundle: Vec<u8> = (0..length).map(|_| random.any() as u8).collect();
        let (work, output) = (random.below(4) as usize * needed(&bundle) / 2, random.below(99) as usize);
        checks.compare(&bundle, Some(work), output, (Packed::Refused(1), None));
    }
    for length in [LONGEST_BUNDLE + 4, LONGEST_BUNDLE + 400] {
        let bundle = long_line(length);
        checks.compare(&bundle, Some(0), 100, (Packed::Refused(1), None));
        checks.compare(&bundle[..LONGEST_BUNDLE + 1], Some(100), 100, (Packed::Refused(1), None));
    }
    checks.counts.assert_reached("lengths", [1].into_iter());
}

/// 19 before 18: the output doesn't matter.
#[test]
fn sections_that_are_too_long() {
    let mut checks = Checks::new(25);
    for more in 0..50 {
        let bundle = strings_of(8_388_608 + more * 777);
        checks.compare(&bundle, Some(needed(&bundle)), 0, (Packed::Refused(19), None));
        checks.pack(&bundle, needed(&bundle) + 3, 1000 * more as usize);
    }
    let bundle = suffixes(4_095);
    checks.pack(&bundle, needed(&bundle), 1 << 24);
    checks.counts.assert_reached("sections that are too long", [19].into_iter());
    assert_eq!(checks.counts.0[19], 101);
}

#[test]
fn sections_as_long_as_can_be() {
    let mut checks = Checks::new(26);
    for bundle in [strings_of(8_388_607), suffixes(4_094), long_line(LONGEST_BUNDLE)] {
        checks.pack(&bundle, needed(&bundle), 1 << 24);
    }
    assert_eq!(checks.counts.0[0], 3);
}

#[test]
fn as_many_units_as_can_be() {
    let mut checks = Checks::new(27);
    for units in [174_762, 174_763] {
        let bundle = many_units(units);
        checks.pack(&bundle, needed(&bundle), 1 << 24);
    }
    assert_eq!((checks.counts.0[0], checks.counts.0[19]), (1, 1));
}

/// Packages as input with many rows: all naming one place, all but one beside it, and in the reverse order of their units.
#[test]
fn many_rows() {
    let mut checks = Checks::new(30);
    for rows in [1, 2, 3, 10, 1_000, 2_000] {
        for bundle in [rows_of_one_place(rows), rows_beside_one_place(rows), reversed_rows(rows)] {
            checks.pack(&bundle, needed(&bundle), 1 << 20);
        }
    }
    assert_eq!((checks.counts.0[0], checks.counts.0[15]), (13, 5));
}

/// Packages of version 5 with many rows: all naming one part of str_offsets, in the reverse order of their parts, and parts over each other.
#[test]
fn many_pieces() {
    let mut checks = Checks::new(31);
    for rows in [1, 2, 3, 10, 1_000, 2_000] {
        for bundle in [rows_of_one_piece(rows), reversed_pieces(rows), pieces_of_one_place(rows)] {
            checks.pack(&bundle, needed(&bundle), 1 << 20);
        }
    }
    assert_eq!((checks.counts.0[0], checks.counts.0[34]), (13, 5));
}

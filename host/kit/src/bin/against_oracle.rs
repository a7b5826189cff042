//! Compares the proved packer with thorin.
//!
//!     against_oracle ORACLE NUMBER [SEED]
//!     against_oracle ORACLE --sample NUMBER FILE [SEED]
//!     against_oracle ORACLE --reference NUMBER [SEED]
//!
//! ORACLE is a program that packs bundles with thorin (see `kit::oracle`). NUMBER accepted bundles are compared. Where thorin is the measure
//! (`kit::measured` has the test) its package is compared byte for byte; the others, packages as input whose rows are out of step, whose
//! abbreviations the whole section gives otherwise or whose str_offsets has several parts, are compared with the reference alone. An index of so many units that thorin counts
//! its slots otherwise is compared with the reference's, all other sections with thorin's. It says how many were of each kind, and none may
//! differ: docs/DIFFERENCES.md names no other difference but refusals. For each refusal it is counted what thorin did; the numbers are
//! compared with the reference's, and where docs/DIFFERENCES.md saw thorin pack nothing, it may not pack.
//! What an accepted bundle hands in is looked up in its package. It fails where a packing takes longer than its work allows
//! (`Lender::in_time`).
//!
//! With --sample, NUMBER accepted bundles of which thorin is the measure and a thirtieth as many of each refusal from 4 to 16 and of 34 are written to
//! FILE with thorin's answers. There the proved packer has no say: which are accepted, and the numbers, are the reference's.
//!
//! With --reference, the reference stands in the place of the proved packer: so it is held to thorin itself.

use barthovin::ffi::Skipped;
use kit::claim::{Claim, Counts};
use kit::generate::{call, Random};
use kit::lender::{Lender, Written};
use kit::measured::{by_thorins, measure, other_slots, parts_of_packages, Measure};
use kit::oracle::Oracle;
use kit::reference::{pack, pack_counted, work_for, Bundle, Object, Packed};
use kit::sample::Told;
use std::collections::BTreeMap;
use std::io::{Error, Result};

const USAGE: &str =
    "against_oracle ORACLE [--reference] NUMBER [SEED], or against_oracle ORACLE --sample NUMBER FILE [SEED]";

/// So many differences end the comparison: a packer that refuses everything would never be done.
const ENOUGH: u64 = 1_000;

/// Few identities that no unit has are asked for, since there are many packages.
const TURNS: usize = 1;

/// What was seen: how often thorin gave each kind of answer, by our number, and for accepted bundles by their measure.
#[derive(Default)]
struct Tally {
    counts: BTreeMap<u32, [u64; 3]>,
    /// The packer's own package, another one, an error, a panic.
    measures: BTreeMap<&'static str, [u64; 4]>,
    /// Of those that thorin measures: all of the package, and all but an index whose slots it counts otherwise.
    whole: u64,
    but_an_index: u64,
    differences: u64,
    smallest: Option<Vec<u8>>,
    /// Accepted bundles of several objects, with an index, and with a type skipped.
    several: u64,
    indexed: u64,
    skipped: u64,
    /// Those with a package of version 5; by whether its str_offsets is not there, one part, several or none.
    fives: u64,
    parts: [u64; 4],
    /// Of those of one part, how many thorin measures.
    one_by_thorin: u64,
}

/// The bytes of all units of a bundle.
fn unit_bytes(bundle: &Bundle) -> usize {
    let sections = bundle.objects.iter().flat_map(|o| &o.sections);
    sections.filter(|s| s.code <= 2).map(|s| s.bytes.len()).sum()
}

impl Tally {
    fn note(&mut self, number: u32, tag: u8) {
        self.counts.entry(number).or_default()[usize::from(tag.min(2))] += 1;
    }

    /// What thorin did with an accepted bundle.
    fn note_accepted(&mut self, by: Measure, package: &[u8], tag: u8, bytes: &[u8]) {
        let name = match by {
            Measure::Thorin => "thorin is the measure",
            Measure::SeveralParts => "several parts of str_offsets",
            Measure::NoPart => "an empty str_offsets in a package",
            Measure::OutOfStep => "rows out of step",
            Measure::OtherIdentity => "another identity by the whole abbrev",
        };
        let other = usize::from(tag.min(2)) + usize::from(tag > 0 || package != bytes);
        self.measures.entry(name).or_default()[other] += 1;
    }

    /// What kind of accepted bundle it is.
    fn note_kind(&mut self, bundle: &[u8], package: &[u8]) {
        let (Some(bundle), Some(package)) = (Bundle::read(bundle), Bundle::read(package)) else { return };
        let indexed = bundle.objects.iter().any(|o| o.count(12) + o.count(13) > 0);
        self.several += u64::from(bundle.objects.len() > 1);
        self.indexed += u64::from(indexed);
        self.skipped += u64::from(unit_bytes(&package) < unit_bytes(&bundle));
        let five = |o: &Object| o.word & 0xFF == 5 && o.count(12) + o.count(13) > 0;
        if bundle.objects.iter().any(five) {
            self.fives += 1;
            let parts: Vec<usize> = parts_of_packages(&bundle).collect();
            let kind = match (parts.iter().any(|n| *n > 1), parts.contains(&0), parts.contains(&1)) {
                (true, ..) => 2,
                (_, true, _) => 3,
                (.., one) => usize::from(one),
            };
            self.parts[kind] += 1;
            self.one_by_thorin += u64::from(kind == 1 && measure(&bundle) == Measure::Thorin);
        }
    }

    fn differs(&mut self, bundle: &[u8]) {
        self.differences += 1;
        if self.smallest.as_ref().is_none_or(|s| bundle.len() < s.len()) {
            self.smallest = Some(bundle.to_vec());
        }
    }

    fn print(&self) {
        println!("accepted                                  same    other    error    panic   (thorin's packages)");
        for (name, [same, other, error, panic]) in &self.measures {
            println!("{name:37} {same:8} {other:8} {error:8} {panic:8}");
        }
        let (whole, but) = (self.whole, self.but_an_index);
        println!("where thorin is the measure: {whole} packages byte for byte, {but} but for an index of other slots");
        println!("number  package    error    panic   (thorin's answers)");
        for (number, [package, error, panic]) in &self.counts {
            println!("{number:6} {package:8} {error:8} {panic:8}");
        }
        let (several, indexed, skipped) = (self.several, self.indexed, self.skipped);
        println!("accepted: {several} of several objects, {indexed} with an index, {skipped} with a type skipped");
        let (fives, [without, one, more, none]) = (self.fives, self.parts);
        print!(
            "with a package of version 5: {fives}; str_offsets of one part {one} (thorin measures {}), ",
            self.one_by_thorin
        );
        println!("of several {more} (the standard alone), empty {none}, not there {without}");
        println!("{} bundles differ", self.differences);
        if let Some(bundle) = &self.smallest {
            println!("{}", words(bundle));
        }
    }
}

fn words(bundle: &[u8]) -> String {
    let word = |w: &[u8]| format!("{:08X}", w.iter().rev().fold(0u32, |v, b| v << 8 | u32::from(*b)));
    bundle.chunks(4).map(word).collect::<Vec<_>>().join(" ")
}

/// The refusals for which docs/DIFFERENCES.md saw thorin pack nothing, by its table: number, packages, errors, panics.
fn never_packed() -> Vec<u32> {
    let row = |line: &str| -> Option<Vec<u32>> {
        let cells = line.strip_prefix("| ")?.strip_suffix(" |")?.split(" | ");
        cells.map(|cell| cell.replace(',', "").parse().ok()).collect()
    };
    let rows = include_str!("../../../../docs/DIFFERENCES.md").lines().filter_map(row).filter(|cells| cells.len() == 4);
    rows.filter(|cells| cells[1] == 0).map(|cells| cells[0]).collect()
}

/// What thorin answered to a bundle.
struct Thorins<'t> {
    tag: u8,
    bytes: &'t [u8],
}

impl Tally {
    /// Notes an answer; whether it is thorin's where thorin is the measure, else the reference's.
    fn judge(&mut self, packing: &Written, bundle: &[u8], thorins: Thorins, never: &[u32]) -> bool {
        let Thorins { tag, bytes } = thorins;
        let read = Bundle::read(bundle).filter(|_| packing.code == 0);
        let Some(read) = read else {
            self.note(packing.code, tag);
            let refused = packing.agrees(&pack(bundle, work_for(bundle), usize::MAX));
            return refused && !(tag == 0 && never.contains(&packing.code));
        };
        // A wrong package may be one of a bundle that has no measure.
        let Packed::Made(wanted) = pack(bundle, work_for(bundle), usize::MAX) else { return false };
        let by = measure(&read);
        let thorins = by_thorins(bytes, &wanted).filter(|_| tag == 0);
        let told = thorins.as_deref().filter(|_| by == Measure::Thorin);
        self.note_accepted(by, packing.bytes, tag, told.unwrap_or(bytes));
        if by != Measure::Thorin {
            return packing.bytes == wanted;
        }
        let whole = Bundle::read(&wanted).is_some_and(|package| other_slots(&package).is_empty());
        self.whole += u64::from(whole);
        self.but_an_index += u64::from(!whole);
        thorins.is_some_and(|thorins| packing.bytes == thorins)
    }
}

/// Who packs: the proved packer in lent memory, or the reference, with its last package.
enum Packer {
    Proved(Box<Lender>),
    Reference(Vec<u8>),
}

impl Packer {
    fn pack(&mut self, bundle: &[u8]) -> std::result::Result<Written<'_>, String> {
        let made = match self {
            Packer::Proved(lent) => return lent.pack_whole(bundle),
            Packer::Reference(made) => made,
        };
        let (answer, counted) = pack_counted(bundle, work_for(bundle), usize::MAX);
        let skipped = Skipped { repeats: counted.repeats, namesakes: counted.namesakes };
        let code = match answer {
            Packed::Made(package) => {
                *made = package;
                0
            }
            Packed::Refused(number) => number,
            Packed::Short(_) => return Err("no output is too short".to_string()),
        };
        let bytes = if code == 0 { &made[..] } else { &[] };
        Ok(Written { code, length: bytes.len(), bytes, skipped })
    }

    /// An error where the proved packer took too long for the last bundle, which is this one.
    fn in_time(&mut self, bundle: &[u8], output: usize) -> std::result::Result<(), String> {
        match self {
            Packer::Proved(lent) => lent.in_time(bundle, work_for(bundle), output),
            Packer::Reference(_) => Ok(()),
        }
    }
}

fn compare(oracle: &mut Oracle, packer: &mut Packer, wanted: u64, seed: u64) -> Result<(Tally, Counts)> {
    let mut random = Random::new(seed);
    let (mut tally, mut claim) = (Tally::default(), Claim::new(seed, TURNS));
    let never = never_packed();
    let mut bytes = Vec::new();
    let mut accepted = 0;
    while accepted < wanted && tally.differences < ENOUGH {
        let bundle = call(&mut random).bundle;
        let wrong = |e: String| Error::other(format!("{e}: {}", words(&bundle)));
        let tag = oracle.ask(&bundle, &mut bytes)?;
        let packing = packer.pack(&bundle).map_err(wrong)?;
        if !tally.judge(&packing, &bundle, Thorins { tag, bytes: &bytes }, &never) {
            tally.differs(&bundle);
        } else if packing.code == 0 {
            claim.check(&bundle, packing.bytes).map_err(wrong)?;
        }
        let length = packing.length;
        if packing.code == 0 {
            accepted += 1;
            tally.note_kind(&bundle, packing.bytes);
        }
        packer.in_time(&bundle, length).map_err(wrong)?;
    }
    Ok((tally, claim.counts))
}

/// What thorin said of a bundle; none where only the oracle's own reader spoke, or thorin isn't the measure of an accepted bundle.
fn told(bundle: &[u8], tag: u8, answer: &[u8]) -> Option<Told> {
    let text = String::from_utf8_lossy(answer).replace('\n', " ");
    let thorin = match tag {
        0 => "package".to_string(),
        1 if text.starts_with("bundle:") || text.starts_with("oracle:") => return None,
        1 => format!("error {text}"),
        _ => format!("panic {text}"),
    };
    let bundle = bundle.to_vec();
    let is_measured = || Bundle::read(&bundle).is_some_and(|read| measure(&read) == Measure::Thorin);
    match pack(&bundle, work_for(&bundle), usize::MAX) {
        Packed::Made(_) if tag == 0 && is_measured() => Some(Told::Package { bundle, package: answer.to_vec() }),
        Packed::Refused(number @ (4..=16 | 34)) => Some(Told::Refused { bundle, number, thorin }),
        _ => None,
    }
}

/// So many accepted bundles, and a thirtieth as many of each refusal, in the order in which they were met.
fn sample(oracle: &mut Oracle, wanted: usize, seed: u64) -> Result<Vec<Told>> {
    let mut random = Random::new(seed);
    let mut left: BTreeMap<u32, usize> = (4..=16).chain([34]).map(|number| (number, wanted / 30)).collect();
    left.insert(0, wanted);
    let mut lines = Vec::new();
    let mut answer = Vec::new();
    while left.values().any(|n| *n > 0) {
        let bundle = call(&mut random).bundle;
        let tag = oracle.ask(&bundle, &mut answer)?;
        let Some(line) = told(&bundle, tag, &answer) else { continue };
        let number = if let Told::Refused { number, .. } = line { number } else { 0 };
        let room = left.entry(number).or_default();
        if *room > 0 {
            *room -= 1;
            lines.push(line);
        }
    }
    Ok(lines)
}

fn write_sample(path: &str, wanted: usize, file: &str, seed: u64) -> Result<()> {
    let lines = sample(&mut Oracle::start(path)?, wanted, seed)?;
    let version = Oracle::version(path)?;
    let mut text = format!("# against_oracle ORACLE --sample {wanted} FILE {seed}; thorin 810768ceba with {version}\n");
    lines.iter().for_each(|line| text += &format!("{line}\n"));
    std::fs::write(file, &text)?;
    println!("{} bundles with thorin's answers, {} bytes, in {file}", lines.len(), text.len());
    Ok(())
}

fn main() -> Result<()> {
    let words: Vec<String> = std::env::args().skip(1).collect();
    let words: Vec<&str> = words.iter().map(String::as_str).collect();
    let number = |i: usize| words.get(i).and_then(|w| w.parse::<u64>().ok());
    if let [path, "--sample", _, file, ..] = words[..] {
        let wanted = number(2).ok_or_else(|| Error::other(USAGE))?;
        return write_sample(path, wanted as usize, file, number(4).unwrap_or(1));
    }
    let by_reference = words.get(1) == Some(&"--reference");
    let first = if by_reference { 2 } else { 1 };
    let (Some(path), Some(wanted)) = (words.first(), number(first)) else { return Err(Error::other(USAGE)) };
    let seed = number(first + 1).unwrap_or(1);
    let start = std::time::Instant::now();
    let mut packer =
        if by_reference { Packer::Reference(Vec::new()) } else { Packer::Proved(Box::new(Lender::new(seed))) };
    let (tally, claimed) = compare(&mut Oracle::start(path)?, &mut packer, wanted, seed)?;
    tally.print();
    println!("{claimed}");
    println!("{:.1} seconds, seed {seed}", start.elapsed().as_secs_f64());
    if tally.differences > 0 {
        return Err(Error::other(
            "the packer differs from thorin, or from the reference where thorin isn't the measure",
        ));
    }
    Ok(())
}

//! Packing in two sittings (FORMAT 6.11): the first objects of a bundle are packed, then their package's object and the other ones. Where both are
//! accepted, all objects at once give the second package.
//!
//! Generated bundles are split at every object, damaged ones too: that all objects together are accepted is what must come out. Who packs
//! is handed in, so that a wrong packer can be tried as well.

use crate::generate::{call, Draft, DraftObject, Random};
use crate::handed_in::first_uses;
use crate::reference::{Bundle, Index, Object, Packed, LONGEST_BUNDLE};
use std::collections::{BTreeMap, HashSet};
use std::fmt::{Display, Formatter};

/// Packs with work and output enough; an error where it leaves memory as it must not.
pub type Packer<'p> = dyn FnMut(&[u8]) -> Result<Packed, String> + 'p;

const STR: u32 = 11;
const CU_INDEX: u32 = 12;
const TU_INDEX: u32 = 13;
const SHARED: std::ops::RangeInclusive<u32> = 3..=10;

/// So many splits are tried for each that is wanted: a packer that takes no package would never be done.
const TRIES: u64 = 20;
/// Of those wanted, one in so many at least is of version 4, and as many of version 5.
const EACH_VERSION: u64 = 4;

/// What became of a split.
#[derive(Debug)]
pub enum Split {
    /// The first sitting is refused, by a number.
    First(u32),
    /// The second one is.
    Second(u32),
    /// All objects together are no bundle, since they are too long.
    TooLong,
    /// Both are accepted, and all objects together give the second one's package.
    Same(Sittings),
}

/// Two sittings that were accepted: the first one's package, what was packed in the second one, and its package.
#[derive(Debug)]
pub struct Sittings {
    pub first: Vec<u8>,
    pub again: Vec<u8>,
    pub package: Vec<u8>,
}

fn owned(object: &Object) -> DraftObject {
    let sections = object.sections.iter().map(|s| (s.code, s.bytes.to_vec())).collect();
    DraftObject { word: object.word, sections }
}

/// The objects of a bundle, where its words can be read.
pub fn objects_of(bundle: &[u8]) -> Option<Draft> {
    let read = Bundle::read(bundle)?;
    Some(Draft { big: read.big, objects: read.objects.iter().map(owned).collect() })
}

/// A package's one object.
fn object_of(package: &[u8]) -> Result<DraftObject, String> {
    let mut objects = objects_of(package).map_or(Vec::new(), |read| read.objects);
    match objects.len() {
        1 => Ok(objects.remove(0)),
        count => Err(format!("the first sitting's package has {count} objects")),
    }
}

/// A bundle split behind so many objects, with what all of them together give. An error where the law isn't kept.
pub fn split(whole: &Draft, at: usize, together: &Packed, pack: &mut Packer) -> Result<Split, String> {
    let (front, further) = whole.objects.split_at(at);
    let bundle = |objects: Vec<DraftObject>| Draft { big: whole.big, objects }.bytes();
    let first = match pack(&bundle(front.to_vec()))? {
        Packed::Made(package) => package,
        refusal => return Ok(Split::First(number(&refusal))),
    };
    let again = bundle([&[object_of(&first)?], further].concat());
    let package = match pack(&again)? {
        Packed::Made(package) => package,
        refusal => return Ok(Split::Second(number(&refusal))),
    };
    if whole.bytes().len() > LONGEST_BUNDLE {
        return Ok(Split::TooLong);
    }
    match together {
        Packed::Made(all) if *all == package => Ok(Split::Same(Sittings { first, again, package })),
        Packed::Made(_) => Err(format!("split behind object {at}, two sittings give another package")),
        refusal => Err(format!("split behind object {at}, both are accepted, together refused {}", number(refusal))),
    }
}

fn number(answer: &Packed) -> u32 {
    match answer {
        Packed::Refused(number) => *number,
        Packed::Short(_) => 18,
        Packed::Made(_) => 0,
    }
}

/// What was seen.
#[derive(Debug, Default)]
pub struct Tally {
    pub bundles: u64,
    pub tried: u64,
    /// Both accepted, and the joined bundle is not too long.
    pub held: u64,
    /// Refusals of the first sitting and of the second, by number.
    pub refused: [BTreeMap<u32, u64>; 2],
    pub too_long: u64,
    /// Of those held: of version 4, of version 5.
    pub versions: [u64; 2],
    /// With a table of types; with a type skipped in the second sitting.
    pub types: u64,
    pub skipped: u64,
    /// With strings; with further objects that name a string which the first package has.
    pub strings: u64,
    pub known_strings: u64,
    /// With units that share a part.
    pub shared: u64,
    /// With a package among the objects handed in, first or further.
    pub packages: u64,
}

impl Tally {
    /// Splits a bundle behind each of its objects but the last.
    fn split(&mut self, whole: &Draft, pack: &mut Packer) -> Result<(), String> {
        if whole.objects.len() < 2 {
            return Ok(());
        }
        let together = pack(&whole.bytes())?;
        self.bundles += 1;
        for at in 1..whole.objects.len() {
            self.tried += 1;
            match split(whole, at, &together, pack)? {
                Split::First(number) => *self.refused[0].entry(number).or_default() += 1,
                Split::Second(number) => *self.refused[1].entry(number).or_default() += 1,
                Split::TooLong => self.too_long += 1,
                Split::Same(sittings) => self.note(whole, &sittings),
            }
        }
        Ok(())
    }

    /// Of which kind a split is.
    fn note(&mut self, whole: &Draft, sittings: &Sittings) {
        let read = [&sittings.first, &sittings.again, &sittings.package].map(|bytes| Bundle::read(bytes));
        let [Some(first), Some(again), Some(package)] = read else { return };
        let (first, object) = (&first.objects[0], &package.objects[0]);
        self.held += 1;
        self.versions[usize::from(object.word & 0xFF == 5)] += 1;
        self.types += u64::from(object.count(TU_INDEX) > 0);
        self.skipped += u64::from(unit_bytes(&package) < unit_bytes(&again));
        self.strings += u64::from(object.count(STR) > 0);
        self.known_strings += u64::from(names_a_known_string(first, &again));
        self.shared += u64::from(has_shared_parts(object, package.big));
        let is_package = |o: &DraftObject| o.sections.iter().any(|(code, _)| matches!(*code, CU_INDEX | TU_INDEX));
        self.packages += u64::from(whole.objects.iter().any(is_package));
    }

    /// An error where too few splits had their premises.
    fn enough(&self, wanted: u64) -> Result<(), String> {
        let [four, five] = self.versions;
        let few = self.held < wanted || four.min(five) < wanted / EACH_VERSION;
        match few {
            true => Err(format!(
                "too few splits have their premises: {} of {wanted}, {four} of version 4, {five} of version 5\n{self}",
                self.held
            )),
            false => Ok(()),
        }
    }
}

/// The bytes of all units of a bundle.
fn unit_bytes(bundle: &Bundle) -> usize {
    let sections = bundle.objects.iter().flat_map(|o| &o.sections);
    sections.filter(|s| s.code <= 2).map(|s| s.bytes.len()).sum()
}

/// Whether an object that follows the package of a bundle names a string that the package has.
fn names_a_known_string(package: &Object, again: &Bundle) -> bool {
    let further = Bundle { big: again.big, objects: again.objects[1..].to_vec() };
    let known: HashSet<&[u8]> = package.bytes(STR).split_inclusive(|byte| *byte == 0).collect();
    first_uses(&further).iter().any(|string| known.contains([string, &b"\0"[..]].concat().as_slice()))
}

/// Whether two rows of a package name the same part, which isn't empty, of a shared section.
fn has_shared_parts(package: &Object, big: bool) -> bool {
    let indexes = [CU_INDEX, TU_INDEX].into_iter().filter_map(|code| Index::read(package.bytes(code), big));
    let mut seen = HashSet::new();
    let cells =
        |index: &Index, row: u64| SHARED.filter_map(|code| Some((code, index.cell(row, code)?))).collect::<Vec<_>>();
    let mut parts = indexes.flat_map(|index| (1..=index.units).flat_map(|row| cells(&index, row)).collect::<Vec<_>>());
    parts.any(|(code, (offset, size))| size > 0 && !seen.insert((code, offset, size)))
}

impl Display for Tally {
    fn fmt(&self, out: &mut Formatter) -> std::fmt::Result {
        let Tally { bundles, tried, held, too_long, types, skipped, strings, known_strings, shared, packages, .. } =
            self;
        writeln!(out, "{bundles} bundles of several objects, {tried} splits, {held} with their premises")?;
        writeln!(out, "number    first   second   (the sitting that is refused)")?;
        let [first, second] = &self.refused;
        let numbers: std::collections::BTreeSet<&u32> = first.keys().chain(second.keys()).collect();
        for number in numbers {
            let count = |of: &BTreeMap<u32, u64>| of.get(number).copied().unwrap_or(0);
            writeln!(out, "{number:6} {:8} {:8}", count(first), count(second))?;
        }
        let [four, five] = self.versions;
        writeln!(out, "both accepted and together too long: {too_long}")?;
        writeln!(out, "with their premises: {four} of version 4, {five} of version 5")?;
        writeln!(out, "  types {types}, a type skipped in the second sitting {skipped}")?;
        writeln!(out, "  strings {strings}, a string of the first sitting named again {known_strings}")?;
        write!(out, "  parts that units share {shared}, a package among the objects {packages}")
    }
}

/// Splits generated bundles until so many splits had their premises. An error at the first that isn't the same, with its bundle, and where too few
/// had their premises.
pub fn run(wanted: u64, seed: u64, pack: &mut Packer) -> Result<Tally, String> {
    let (mut random, mut tally) = (Random::new(seed), Tally::default());
    while tally.held < wanted && tally.tried < TRIES * wanted {
        let bundle = call(&mut random).bundle;
        let Some(whole) = objects_of(&bundle) else { continue };
        tally.split(&whole, pack).map_err(|e| format!("{e}, for {bundle:02X?}"))?;
    }
    tally.enough(wanted)?;
    Ok(tally)
}

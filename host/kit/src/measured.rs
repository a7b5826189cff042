//! Which accepted bundles thorin measures.
//!
//! thorin never reads a row's offset: it adds up the sizes of the rows of the kept units before it, table by table and object by object. And
//! it reads abbreviations at the header's offset in the whole section. So its package is the measure where both come to the same as the
//! row's own offset and the row's own part. Elsewhere the rule of DWARF stands alone, as `reference` has it.
//!
//! Of a version 5 package thorin takes str_offsets as one part: it writes a header of its own in front of all that follows the first 8 or 16
//! bytes, headers of further parts among it, and it fails where the section is there and empty. So packages of version 5 with several
//! parts, and those with an empty section, are measured by the standard alone.
//!
//! A table of 3, 11, 43, 171 and so on units has twice the slots that thorin gives it (FORMAT 5.4). There the reference alone judges the
//! index; all else in the package is compared with thorin's.

use crate::generate::{Draft, DraftObject};
use crate::handed_in::{all, firsts, pieces};
use crate::reference::{slot_count, Bundle, Index, Object};
use std::collections::HashMap;

const STR_OFFSETS: u32 = 6;
const SHARED: std::ops::RangeInclusive<u32> = 3..=10;

/// Why thorin is or isn't the measure of an accepted bundle.
#[derive(Clone, Copy, Debug, PartialEq, Eq)]
pub enum Measure {
    /// All rows of kept units are in step (FORMAT 1.3), thorin reads the same identities, and no package of version 5 is of the kinds below.
    Thorin,
    /// Some package of version 5 has several parts of str_offsets.
    SeveralParts,
    /// None has, but in one str_offsets is empty.
    NoPart,
    /// Some kept unit's part doesn't start where those before it end.
    OutOfStep,
    /// All rows are in step, and the whole abbrev gives some unit another identity or none.
    OtherIdentity,
}

/// Of a bundle that packing accepts.
pub fn measure(bundle: &Bundle) -> Measure {
    if parts_of_packages(bundle).any(|parts| parts > 1) {
        Measure::SeveralParts
    } else if parts_of_packages(bundle).any(|parts| parts == 0) {
        Measure::NoPart
    } else if !is_in_step(bundle) {
        Measure::OutOfStep
    } else if !all(bundle).iter().all(|unit| unit.is_the_same_by_the_whole_abbrev()) {
        Measure::OtherIdentity
    } else {
        Measure::Thorin
    }
}

/// How many parts str_offsets has in each package of version 5 that has the section.
pub fn parts_of_packages<'b>(bundle: &'b Bundle<'b>) -> impl Iterator<Item = usize> + 'b {
    let is_package = |o: &&Object| o.word & 0xFF == 5 && o.count(12) + o.count(13) > 0 && o.count(STR_OFFSETS) > 0;
    bundle.objects.iter().filter(is_package).map(|object| pieces(object, bundle.big).len())
}

/// Whether the part of each kept unit starts at the sum of the sizes of those before it, of its object, its table and that section.
fn is_in_step(bundle: &Bundle) -> bool {
    let mut sums: HashMap<(usize, u32, u32), u64> = HashMap::new();
    firsts(bundle).iter().all(|unit| {
        SHARED.filter_map(|code| unit.cell(code).map(|cell| (code, cell))).all(|(code, (offset, size))| {
            let sum = sums.entry((unit.nth, unit.table, code)).or_default();
            let in_step = *sum == offset;
            *sum += size;
            in_step
        })
    })
}

/// thorin's rule: the first power of two that reaches 3n/2 rounded down, and 2 for fewer than two units.
fn thorins_slots(units: usize) -> usize {
    if units < 2 {
        2
    } else {
        (3 * units / 2).next_power_of_two()
    }
}

/// The indexes of a package whose slots thorin counts otherwise, by their section codes.
pub fn other_slots(package: &Bundle) -> Vec<u32> {
    let units = |code: u32| {
        let section = package.objects.first()?.section(code)?;
        Index::read(section.bytes, package.big).map(|index| index.units as usize)
    };
    let differs = |code: &u32| units(*code).is_some_and(|units| thorins_slots(units) != slot_count(units));
    [12, 13].into_iter().filter(differs).collect()
}

/// What a package must be by thorin's: all of thorin's, but for the indexes whose slots it counts otherwise, which are taken from a package of
/// the same bundle that was made by the rule of FORMAT 5.4. None where thorin's isn't a package or lacks such an index.
pub fn by_thorins(thorins: &[u8], by_the_rule: &[u8]) -> Option<Vec<u8>> {
    let (thorins_own, ours) = (Bundle::read(thorins)?, Bundle::read(by_the_rule)?);
    let others = other_slots(&ours);
    if others.is_empty() {
        return Some(thorins.to_vec());
    }
    let object = thorins_own.objects.first()?;
    let taken = |code: u32| if others.contains(&code) { &ours.objects[0] } else { object };
    let sections = object.sections.iter().map(|s| (s.code, taken(s.code).bytes(s.code).to_vec())).collect();
    let all_there = others.iter().all(|code| object.count(*code) == 1);
    let package = Draft { big: thorins_own.big, objects: vec![DraftObject { word: object.word, sections }] };
    all_there.then(|| package.bytes())
}

//! Questions for the lookups, about packages whole and damaged.

use super::damage::damage;
use super::objects::{Draft, DraftObject};
use super::random::Random;
use crate::reference::{Bundle, Index};
use barthovin::answer::Asked;

#[derive(Clone, Debug, PartialEq, Eq)]
pub struct Question {
    pub package: Vec<u8>,
    pub version: u32,
    pub table: u32,
    pub identity: u64,
    pub asked: Asked,
}

/// A question about a package, which is damaged first now and then.
pub fn question(random: &mut Random, package: &[u8]) -> Question {
    let identities = identities(package);
    let named = package.get(4).copied().unwrap_or(4);
    let version = match random.below(12) {
        0 => random.pick(&[0, 2, 3, 4, 5]),
        _ => {
            if named == 5 {
                5
            } else {
                2
            }
        }
    };
    let table = if random.one_in(12) { random.below(4) as u32 } else { random.between(1, 2) as u32 };
    let known = !identities.is_empty() && !random.one_in(5);
    let identity = if known { random.pick(&identities) } else { random.any() >> random.pick(&[0, 32, 61]) };
    let asked = match random.below(4) {
        0 => Asked::Entry(random.below(5)),
        1 => Asked::Entry(random.pick(&[0, 1, 11, 1 << 31, 1 << 61, u64::MAX])),
        _ => Asked::Section(if random.one_in(12) { random.below(14) as u32 } else { random.between(1, 10) as u32 }),
    };
    let package = if random.one_in(2) { package.to_vec() } else { damaged(random, package) };
    Question { package, version, table, identity, asked }
}

/// The identities in a package's slots.
fn identities(package: &[u8]) -> Vec<u64> {
    let Some(bundle) = Bundle::read(package) else { return Vec::new() };
    let sections = bundle.objects.iter().flat_map(|o| &o.sections);
    let indexes = sections.filter(|s| s.code >= 12).filter_map(|s| Index::read(s.bytes, bundle.big));
    indexes.flat_map(|i| i.identities).filter(|x| *x != 0).collect()
}

fn damaged(random: &mut Random, package: &[u8]) -> Vec<u8> {
    let Some(bundle) = Bundle::read(package) else { return package.to_vec() };
    let object = |o: &crate::reference::Object| DraftObject {
        word: o.word,
        sections: o.sections.iter().map(|s| (s.code, s.bytes.to_vec())).collect(),
    };
    damage(random, Draft { big: bundle.big, objects: bundle.objects.iter().map(object).collect() })
}

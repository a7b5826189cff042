//! A package is an input like any other: packed again as the only object, it gives itself.
//!
//! The premise is exactly this, for both versions:
//!
//! 1. it has info and abbrev, and str where it has str_offsets (else 7);
//! 2. in version 5, each byte of its str_offsets is in the part that some row names, which is that of a kept unit (else 34);
//! 3. each index has a column for each shared section that isn't empty (else 15).
//!
//! 2 holds where all units are kept and each object that has str_offsets has a unit, if no object is a package itself. It fails where an
//! object's units are all skipped, and where an input package names a part only in rows that no unit needs: such a part is joined all
//! the same, and no row of the package names it. 3 fails where no unit of a table has a part of a section that others have.

use kit::generate::{good, Draft, Random};
use kit::handed_in::{all, firsts, pieces};
use kit::lender::Lender;
use kit::reference::{pack, work_for, Bundle, Index, Object, Packed};
use kit::vectors::words;
use std::collections::{BTreeMap, HashSet};

fn packed(bundle: &[u8]) -> Packed {
    pack(bundle, work_for(bundle), usize::MAX)
}

/// The same through C.
fn packed_by_the_packer(lent: &mut Lender, bundle: &[u8]) -> Packed {
    let written = lent.pack_whole(bundle).unwrap_or_else(|e| panic!("{e}, for {bundle:02X?}"));
    match written.code {
        0 => Packed::Made(written.bytes.to_vec()),
        code => Packed::Refused(code),
    }
}

/// Two units, each in an object of its own with an abbrev of 9 bytes; the first has line, the second has macro. So each lacks a column
/// that its index has, and its cell there is 0, 0.
const LACKING: &str = "F0000000
    10080404 20800014 10 4 1080000 1 0 21800009 B1001101 742 0 22000003 636261
    10080404 20800014 10 4 1080000 2 0 21800009 B1001101 742 0 24000002 6261
    3000001C";

/// The cells of both units by column: info, abbrev, line, macro.
const CELLS: [[(u64, u64); 4]; 2] = [[(0, 20), (0, 9), (0, 3), (0, 0)], [(20, 20), (9, 9), (0, 0), (0, 2)]];

fn object_of(package: &[u8]) -> Object<'_> {
    Bundle::read(package).expect("a package").objects.remove(0)
}

#[test]
fn units_that_lack_columns() {
    let bundle = words(LACKING).expect("words");
    let Packed::Made(package) = packed(&bundle) else { panic!("{:?}", packed(&bundle)) };
    let index = Index::read(object_of(&package).bytes(12), false).expect("an index");
    assert_eq!(index.columns, [1, 3, 4, 8]);
    assert_eq!(index.cells, CELLS.concat());
    assert_eq!(packed(&package), Packed::Made(package.clone()));
    let mut lent = Lender::new(50);
    assert_eq!(packed_by_the_packer(&mut lent, &bundle), Packed::Made(package.clone()));
    assert_eq!(packed_by_the_packer(&mut lent, &package), Packed::Made(package));
}

/// The indexes of a package.
fn indexes(package: &Object, big: bool) -> Vec<Index> {
    let sections = [12, 13].into_iter().filter_map(|code| package.section(code));
    sections.map(|section| Index::read(section.bytes, big).expect("an index")).collect()
}

/// Whether an index has no column for a shared section that isn't empty, since no unit of its table has a part of it.
fn lacks_a_column(package: &Object, big: bool) -> bool {
    let shared: Vec<u32> = (3..=10).filter(|code| !package.bytes(*code).is_empty()).collect();
    indexes(package, big).iter().any(|index| shared.iter().any(|code| index.cell(1, *code).is_none()))
}

/// Whether a byte of str_offsets is in no row's part. Parts of a written package that aren't the same don't overlap.
fn has_a_gap(package: &Object, big: bool) -> bool {
    let cells = |index: &Index| (1..=index.units).filter_map(|row| index.cell(row, 6)).collect::<Vec<_>>();
    let parts: HashSet<(u64, u64)> = indexes(package, big).iter().flat_map(cells).collect();
    parts.iter().map(|(_, size)| size).sum::<u64>() != package.bytes(6).len() as u64
}

/// What packing a package again gives: itself where the premise holds, else the number.
fn wanted(package: &[u8], big: bool) -> Packed {
    let object = object_of(package);
    let has = |code| object.count(code) > 0;
    if !has(1) || !has(3) || has(6) && !has(11) {
        Packed::Refused(7)
    } else if object.word & 0xFF == 5 && has_a_gap(&object, big) {
        Packed::Refused(34)
    } else if lacks_a_column(&object, big) {
        Packed::Refused(15)
    } else {
        Packed::Made(package.to_vec())
    }
}

/// Whether all units are kept, each object has one, and none is a package itself.
fn is_plain(bundle: &[u8]) -> bool {
    let bundle = Bundle::read(bundle).expect("a bundle");
    let all = all(&bundle);
    let has_unit = |nth: usize| all.iter().any(|unit| unit.nth == nth);
    let plain = |(nth, object): (usize, &Object)| has_unit(nth) && object.count(12) + object.count(13) == 0;
    all.len() == firsts(&bundle).len() && bundle.objects.iter().enumerate().all(plain)
}

/// What became of packages that were packed again, of one version.
#[derive(Debug, Default)]
struct Again {
    same: usize,
    /// Of these, those of several objects, and those whose str_offsets has several parts.
    several: usize,
    in_parts: usize,
    refused: BTreeMap<u32, usize>,
    /// Bundles of units that are all kept, and no packages.
    plain: usize,
}

impl Again {
    fn note(&mut self, draft: &Draft, package: &[u8], answer: &Packed) {
        let object = object_of(package);
        match answer {
            Packed::Refused(number) => *self.refused.entry(*number).or_default() += 1,
            _ => {
                self.same += 1;
                self.several += usize::from(draft.objects.len() > 1);
                self.in_parts += usize::from(pieces(&object, draft.big).len() > 1);
            }
        }
    }
}

/// Packs packages of a version again.
fn again(version: u32, bundles: usize, seed: u64, mut packed: impl FnMut(&[u8]) -> Packed) -> Again {
    let mut random = Random::new(seed);
    let mut seen = Again::default();
    for _ in 0..bundles {
        let draft = good(&mut random);
        if draft.objects.first().is_none_or(|object| object.word & 0xFF != version) {
            continue;
        }
        let bundle = draft.bytes();
        let Packed::Made(package) = packed(&bundle) else { panic!("not accepted: {bundle:02X?}") };
        let wanted = wanted(&package, draft.big);
        if is_plain(&bundle) {
            seen.plain += 1;
            assert_ne!(wanted, Packed::Refused(34), "{bundle:02X?}");
        }
        assert_eq!(packed(&package), wanted, "{bundle:02X?}");
        seen.note(&draft, &package, &wanted);
    }
    println!("version {version}: {seen:?}");
    seen
}

fn enough(version: u32, seen: &Again) {
    let refused = |number: u32| seen.refused.get(&number).copied().unwrap_or(0);
    assert!(seen.same > 1_000 && seen.several > 300 && seen.plain > 500, "{seen:?}");
    assert!(refused(7) > 100 && refused(15) > 100, "{seen:?}");
    if version == 5 {
        assert!(seen.in_parts > 150 && refused(34) > 100, "{seen:?}");
    }
}

#[test]
fn packages_give_themselves() {
    for version in [4, 5] {
        enough(version, &again(version, 10_000, 51, packed));
    }
}

#[test]
fn packages_give_themselves_through_c() {
    let mut lent = Lender::new(52);
    for version in [4, 5] {
        enough(version, &again(version, 10_000, 53, |bundle| packed_by_the_packer(&mut lent, bundle)));
    }
}

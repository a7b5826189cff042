//! The theorem on what runs: through C, everything that a bundle hands in is found in its package, and nothing else. What must be found is
//! read from the bundle as it was handed in, and the looks are counted here, so that neither packer nor lookups have a say in it.

use crate::generate::Random;
use crate::handed_in::{first_uses, firsts, HandedIn};
use crate::reference::{Bundle, Found};
use barthovin::answer::Asked;
use barthovin::ffi;
use std::collections::BTreeMap;
use std::fmt::{Display, Formatter};

const STR_OFFSETS: u32 = 6;
const STR: u32 = 11;
const OTHER_VERSION: u32 = 22;
const NO_ENTRY: u32 = 25;

/// The slots of one table (FORMAT 5.4): the identity in each, none where it is unused.
pub struct Slots(pub Vec<Option<u64>>);

/// The place in which an identity is looked for first, and the next ones.
fn places(identity: u64, slots: usize) -> impl Iterator<Item = usize> {
    let mask = slots as u64 - 1;
    let step = ((identity >> 32) & mask) | 1;
    std::iter::successors(Some(identity & mask), move |place| Some((place + step) % (mask + 1))).map(|p| p as usize)
}

impl Slots {
    /// Unit by unit, each in the first free slot.
    pub fn of(identities: &[u64]) -> Slots {
        // More than half as many again as units, a power of two, at least 2.
        let count = (3 * identities.len() / 2 + 1).next_power_of_two().max(2);
        let mut slots = vec![None; count];
        for identity in identities {
            let free = places(*identity, count).take(count).find(|place| slots[*place].is_none());
            slots[free.expect("a free slot")] = Some(*identity);
        }
        Slots(slots)
    }

    /// How many slots are looked at until the identity or an unused one is met.
    pub fn looks(&self, identity: u64) -> usize {
        let ends = |place: &usize| self.0[*place].is_none_or(|x| x == identity);
        let met = places(identity, self.0.len()).take(self.0.len()).position(|place| ends(&place));
        met.map_or(self.0.len(), |before| before + 1)
    }
}

/// One table of a bundle: the first unit of each identity, and the slots of its index if one is written.
struct Table<'b> {
    number: u32,
    units: BTreeMap<u64, HandedIn<'b>>,
    slots: Option<Slots>,
}

impl<'b> Table<'b> {
    /// Of its units in the order in which they are handed in.
    fn of(number: u32, units: Vec<HandedIn<'b>>) -> Table<'b> {
        let identities: Vec<u64> = units.iter().map(|unit| unit.identity).collect();
        let slots = (!identities.is_empty()).then(|| Slots::of(&identities));
        Table { number, units: identities.into_iter().zip(units).collect(), slots }
    }

    fn looks(&self, identity: u64) -> usize {
        self.slots.as_ref().map_or(0, |slots| slots.looks(identity))
    }

    /// With n units, n looks find one and n + 1 end as absent, at most.
    fn few_looks(&self, identity: u64, looks: usize) -> Result<(), String> {
        let absent = usize::from(!self.units.contains_key(&identity));
        let few = looks <= self.units.len() + absent;
        few.then_some(()).ok_or_else(|| format!("{looks} looks for {identity:x} among {} units", self.units.len()))
    }
}

/// The package's str, cut after each zero byte: the strings that entries name, each once, in the order of first use.
fn check_str(bundle: &Bundle, package: &[u8]) -> Result<(), String> {
    let package = Bundle::read(package).ok_or("no package")?;
    let text = package.objects.first().map_or(&[][..], |object| object.bytes(STR));
    let pieces = text.split_inclusive(|byte| *byte == 0);
    let wanted = first_uses(bundle);
    let right =
        pieces.clone().count() == wanted.len() && pieces.zip(wanted).all(|(p, s)| p.split_last() == Some((&0, s)));
    right.then_some(()).ok_or_else(|| "str isn't the strings named, each once, in order of first use".to_string())
}

/// What was asked, by kind of answer.
#[derive(Debug, Default)]
pub struct Counts {
    pub bundles: usize,
    pub of_packages: usize,
    pub without_units: usize,
    pub units: usize,
    pub parts: usize,
    pub strings: usize,
    pub no_entry: usize,
    pub absent: usize,
    pub no_table: usize,
    pub other_version: usize,
    pub most_looks: usize,
}

impl Display for Counts {
    fn fmt(&self, out: &mut Formatter) -> std::fmt::Result {
        let Counts { bundles, units, parts, strings, absent, most_looks, .. } = self;
        write!(
            out,
            "the claim held for {bundles} bundles: {units} units with {parts} parts and {strings} strings found, "
        )?;
        write!(out, "{absent} identities absent, at most {most_looks} looks for a unit")
    }
}

/// One question about a package.
#[derive(Clone, Copy, Debug)]
struct Query {
    version: u32,
    table: u32,
    identity: u64,
    asked: Asked,
}

/// Whatever can be asked about an identity that has no unit.
fn every_code_and_a_string() -> impl Iterator<Item = Asked> {
    (1..=10).map(Asked::Section).chain([Asked::Entry(0)])
}

/// A package, and how it is asked.
struct Lookups<'p> {
    package: &'p [u8],
    version: u32,
    counts: &'p mut Counts,
}

impl Lookups<'_> {
    fn ask(&self, query: Query) -> Found {
        let Query { version, table, identity, asked } = query;
        match asked {
            Asked::Section(code) => ffi::lookup(self.package, version, table, identity, code),
            Asked::Entry(entry) => ffi::lookup_string(self.package, version, table, identity, entry),
        }
    }

    fn answers(&self, query: Query, wanted: Found) -> Result<(), String> {
        let found = self.ask(query);
        (found == wanted).then_some(()).ok_or_else(|| format!("{query:?}: {found:?}, not {wanted:?}"))
    }

    /// A part is found after so many looks, and it is right.
    fn finds(&self, query: Query, wanted_looks: usize, is_right: impl Fn(&[u8]) -> bool) -> Result<(), String> {
        match self.ask(query) {
            Found::Part { start, length, looks }
                if looks == wanted_looks && is_right(&self.package[start..start + length]) =>
            {
                Ok(())
            }
            found => Err(format!("{query:?}: {found:?}, not after {wanted_looks} looks what is handed in")),
        }
    }

    /// A question about a unit, by the version that the package has.
    fn about(&self, unit: &HandedIn, asked: Asked) -> Query {
        Query { version: self.version, table: unit.table, identity: unit.identity, asked }
    }

    /// All parts of a unit. The entries of str_offsets are new, so that only as many are wanted.
    fn check_parts(&mut self, unit: &HandedIn, looks: usize) -> Result<(), String> {
        for code in 1..=10 {
            let wanted = unit.part(code);
            let is_right = |part: &[u8]| if code == STR_OFFSETS { part.len() == wanted.len() } else { part == wanted };
            self.finds(self.about(unit, Asked::Section(code)), looks, is_right)?;
            self.counts.parts += 1;
        }
        Ok(())
    }

    /// All strings of a unit, and entries that it doesn't have.
    fn check_strings(&mut self, unit: &HandedIn, looks: usize) -> Result<(), String> {
        let strings = unit.strings();
        for (entry, string) in (0..).zip(&strings) {
            self.finds(self.about(unit, Asked::Entry(entry)), looks, |found| found == *string)?;
        }
        let none = strings.len() as u64;
        for entry in [none, none + 1, 1 << 32, 1 << 61, 1 << 62, u64::MAX] {
            self.answers(self.about(unit, Asked::Entry(entry)), Found::Refused(NO_ENTRY))?;
            self.counts.no_entry += 1;
        }
        self.counts.strings += strings.len();
        Ok(())
    }

    /// Nothing is found, whatever is asked for, after so many looks.
    fn check_absent(&mut self, table: &Table, identity: u64, looks: usize) -> Result<(), String> {
        for asked in every_code_and_a_string() {
            let query = Query { version: self.version, table: table.number, identity, asked };
            self.answers(query, Found::Absent(looks))?;
        }
        self.counts.absent += 1;
        self.counts.no_table += usize::from(table.slots.is_none());
        Ok(())
    }

    fn check_identity(&mut self, table: &Table, identity: u64) -> Result<(), String> {
        let looks = table.looks(identity);
        table.few_looks(identity, looks)?;
        let Some(unit) = table.units.get(&identity) else { return self.check_absent(table, identity, looks) };
        self.check_parts(unit, looks)?;
        self.check_strings(unit, looks)?;
        self.counts.units += 1;
        self.counts.most_looks = self.counts.most_looks.max(looks);
        Ok(())
    }

    /// By another version: 22, whatever is asked, unless no index was written.
    fn check_other_version(&mut self, table: &Table, identity: u64, some_index: bool) -> Result<(), String> {
        let wanted = if some_index { Found::Refused(OTHER_VERSION) } else { Found::Absent(0) };
        for asked in every_code_and_a_string() {
            self.answers(Query { version: 7 - self.version, table: table.number, identity, asked }, wanted)?;
        }
        self.counts.other_version += usize::from(some_index);
        Ok(())
    }
}

/// The claim, checked bundle by bundle.
pub struct Claim {
    random: Random,
    turns: usize,
    pub counts: Counts,
}

impl Claim {
    /// Each turn asks for up to six identities more, near those of the bundle.
    pub fn new(seed: u64, turns: usize) -> Claim {
        Claim { random: Random::new(seed), turns, counts: Counts::default() }
    }

    /// Identities of the bundle, at most so many of them, some next to them, some that meet in their slots, and any.
    fn identities(&mut self, tables: &[Table], most: usize) -> Vec<u64> {
        let units: usize = tables.iter().map(|t| t.units.len()).sum();
        let step = units.div_ceil(most).max(1);
        let mut all: Vec<u64> = tables.iter().flat_map(|t| t.units.keys()).copied().step_by(step).collect();
        for _ in 0..self.turns {
            if !all.is_empty() {
                let x = self.random.pick(&all);
                all.extend([x ^ 1, x.wrapping_add(16), x ^ 1 << 32, x ^ 1 << 63, x.swap_bytes()]);
            }
            all.push(self.random.any() >> self.random.pick(&[0, 32, 61, 63]));
        }
        all.extend([0, 1, u64::MAX]);
        all.sort();
        all.dedup();
        all
    }

    /// Asks the package of a bundle that packing accepts about every identity, and about others. An error names the question whose
    /// answer is wrong.
    pub fn check(&mut self, bundle: &[u8], package: &[u8]) -> Result<(), String> {
        self.check_some(bundle, package, usize::MAX)
    }

    /// The same about at most so many of its identities, spread over all: for a bundle of very many.
    pub fn check_some(&mut self, bundle: &[u8], package: &[u8], most: usize) -> Result<(), String> {
        let bundle = Bundle::read(bundle).ok_or("no bundle")?;
        check_str(&bundle, package)?;
        let (compilations, types) = firsts(&bundle).into_iter().partition(|unit| unit.table == 1);
        let tables = [Table::of(1, compilations), Table::of(2, types)];
        let some_index = tables.iter().any(|t| t.slots.is_some());
        let version = if bundle.objects.first().is_some_and(|o| o.word & 0xFF == 4) { 2 } else { 5 };
        let identities = self.identities(&tables, most);
        let mut lookups = Lookups { package, version, counts: &mut self.counts };
        for identity in identities {
            for table in &tables {
                lookups.check_identity(table, identity)?;
                lookups.check_other_version(table, identity, some_index)?;
            }
        }
        self.counts.bundles += 1;
        self.counts.of_packages += usize::from(bundle.objects.iter().any(|o| o.count(12) + o.count(13) > 0));
        self.counts.without_units += usize::from(!some_index);
        Ok(())
    }
}

//! The abbreviations of an object's compilation units of version 4: one section for all of them, or a part for each, where a cu_index
//! says which.

use super::abbreviations::{Abbreviations, Root};
use super::random::Random;

/// A part of abbrev: offset and size.
pub type Part = (usize, usize);

/// An abbrev section: one or more runs of tables, each with its place in it.
pub struct Abbrev {
    pub bytes: Vec<u8>,
    runs: Vec<(usize, Abbreviations)>,
    /// The run and the part of each unit, where the units have parts.
    units: Vec<(usize, Part)>,
    /// Parts that reach from anywhere before a unit's table to anywhere behind it.
    anywhere: bool,
}

/// How a unit reads its abbreviations.
pub struct Reading<'a> {
    /// What its header states: the table's place, counted from its part or from the section.
    pub offset: usize,
    pub root: &'a Root,
    pub part: Option<Part>,
}

impl Abbrev {
    /// Read at the header's offset in the whole section.
    pub fn whole(random: &mut Random) -> Abbrev {
        let run = Abbreviations::any(random);
        Abbrev { bytes: run.bytes.clone(), runs: vec![(0, run)], units: Vec::new(), anywhere: false }
    }

    /// With a part for each of so many units. Most often the parts follow each other and are all the same, as in the package of objects
    /// with equal tables: there thorin, which reads the whole section at the header's offset, reads what the part holds.
    pub fn in_parts(random: &mut Random, units: usize) -> Abbrev {
        match random.below(9) {
            0 => Abbrev::shared(random, units),
            1 => Abbrev::own(random, units),
            2 => Abbrev { anywhere: true, ..Abbrev::own(random, units) },
            _ => Abbrev::copies(random, units),
        }
    }

    /// All units share the section as one part.
    fn shared(random: &mut Random, units: usize) -> Abbrev {
        let abbrev = Abbrev::whole(random);
        let all = (0, abbrev.bytes.len());
        Abbrev { units: vec![(0, all); units], ..abbrev }
    }

    /// Each unit has tables of its own, one part behind the other.
    fn own(random: &mut Random, units: usize) -> Abbrev {
        let mut abbrev = Abbrev::whole(random);
        abbrev.units.extend((units > 0).then_some((0, (0, abbrev.bytes.len()))));
        for unit in 1..units {
            let run = Abbreviations::any(random);
            let at = abbrev.bytes.len();
            abbrev.bytes.extend(&run.bytes);
            abbrev.units.push((unit, (at, run.bytes.len())));
            abbrev.runs.push((at, run));
        }
        abbrev
    }

    /// Each unit has a copy of the same tables; now and then bytes stand behind the last part.
    fn copies(random: &mut Random, units: usize) -> Abbrev {
        let mut abbrev = Abbrev::whole(random);
        let size = abbrev.bytes.len();
        abbrev.bytes = abbrev.bytes.repeat(units.max(1));
        abbrev.units = (0..units).map(|unit| (0, (unit * size, size))).collect();
        if random.one_in(4) {
            abbrev.bytes.extend(random.bytes(4));
        }
        abbrev
    }

    /// How the unit of a number reads them.
    pub fn reading(&self, random: &mut Random, unit: usize) -> Reading<'_> {
        let Some((run, part)) = self.units.get(unit) else {
            let (table, root) = self.runs[0].1.any_root(random);
            return Reading { offset: table.start, root, part: None };
        };
        let (at, run) = &self.runs[*run];
        let (table, root) = run.any_root(random);
        if !self.anywhere {
            // A copy has its tables where the first one has them.
            return Reading { offset: table.start, root, part: Some(*part) };
        }
        let (start, end) = (at + table.start, at + table.end);
        let from = start - random.below(start.min(9) as u64 + 1) as usize;
        let to = end + random.below((self.bytes.len() - end).min(9) as u64 + 1) as usize;
        Reading { offset: start - from, root, part: Some((from, to - from)) }
    }
}

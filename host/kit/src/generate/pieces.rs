//! The str_offsets of a version 5 package: parts with a header each, and which unit has which.

use super::objects::{str_offsets, Placed, Shared};
use super::parts::Part;
use super::random::Random;

pub struct Pieces {
    pub bytes: Vec<u8>,
    parts: Vec<Part>,
    width: usize,
}

/// How the units of a table come to their parts.
#[derive(Clone, Copy)]
enum Way {
    /// One behind the other, as thorin adds parts up; when all are given, empty ones at the end.
    InStep,
    /// All have the same one.
    Shared,
    /// The last one first.
    Reversed,
    /// Any of them, now and then an empty one.
    Any,
}

impl Pieces {
    /// As where there is no section or an empty one.
    pub fn none() -> Pieces {
        Pieces { bytes: Vec::new(), parts: Vec::new(), width: 4 }
    }

    /// Most often one part.
    pub fn any(random: &mut Random, shared: &Shared, strings: &[u8]) -> Pieces {
        let mut pieces = Pieces { width: shared.encoding.width, ..Pieces::none() };
        for _ in 0..random.pick(&[0, 1, 1, 1, 1, 2, 3, 5]) {
            let part = str_offsets(random, shared, strings);
            pieces.parts.push((pieces.bytes.len(), part.len()));
            pieces.bytes.extend(part);
        }
        pieces
    }

    /// An empty part that is good in a row that is judged.
    fn empty(&self, random: &mut Random) -> Part {
        let places = self.bytes.len() / self.width + 1;
        (random.below(places as u64) as usize * self.width, 0)
    }

    /// Gives each unit of one table its part.
    pub fn give(&self, random: &mut Random, units: &mut [Placed]) {
        let way = random.pick(&[Way::InStep, Way::InStep, Way::InStep, Way::Shared, Way::Reversed, Way::Any]);
        let (count, end) = (self.parts.len(), (self.bytes.len(), 0));
        let mut given = 0;
        for unit in units {
            unit.strings = Some(match way {
                Way::InStep => self.parts.get(given).copied().unwrap_or(end),
                _ if count == 0 => self.empty(random),
                Way::Shared => self.parts[0],
                Way::Reversed => self.parts[count - 1 - given % count],
                Way::Any if random.one_in(4) => self.empty(random),
                Way::Any => random.pick(&self.parts),
            });
            given += usize::from(unit.kept);
        }
    }

    /// The parts that none of these units has.
    pub fn left<'u>(&self, units: impl Iterator<Item = &'u Placed> + Clone) -> Vec<Part> {
        let is_left = |part: &Part| units.clone().all(|unit| unit.strings != Some(*part));
        self.parts.iter().copied().filter(is_left).collect()
    }

    /// What a row may say that no unit needs: a part, or an empty one anywhere.
    pub fn spare(&self, random: &mut Random) -> Part {
        match random.below(2) {
            0 if !self.parts.is_empty() => random.pick(&self.parts),
            _ => (random.below(99) as usize, 0),
        }
    }
}

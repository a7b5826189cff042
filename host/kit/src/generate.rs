//! A seeded generator of bundles: good ones of every kind, and damaged ones that reach the refusals; and of questions for
//! the lookups. The same seed gives the same bundles on every machine.

mod abbreviations;
mod damage;
mod elf;
mod honest;
mod hostile;
mod inputs;
mod large;
mod objects;
mod parts;
mod pieces;
mod questions;
mod random;
mod rows;
mod spoil;
mod tables;

pub use damage::damage;
pub use elf::{elf, hostile as hostile_elf, hostile_of as hostile_elf_of, long as long_elf, long_of as long_elf_of};
pub use honest::{last_of_many_strings, many_strings, sized, Kind, KINDS};
pub use hostile::{Hostile, HOSTILE, SHORT};
pub use large::{long_line, many_units, strings_of, suffixes, units_of};
pub use objects::{good, Draft, DraftObject};
pub use questions::{question, Question};
pub use random::Random;
pub use rows::{pieces_of_one_place, reversed_pieces, rows_of_one_piece};
pub use rows::{reversed_rows, rows_beside_one_place, rows_of_one_place};
pub use spoil::damaged_call;

use crate::reference::WORK_FOR_A_WORD;

/// What packing is asked: the bundle, the words of work, the bytes of output.
#[derive(Clone, Debug, PartialEq, Eq)]
pub struct Call {
    pub bundle: Vec<u8>,
    pub work: usize,
    pub output: usize,
}

/// A call of any kind: about one in three is good, the others are damaged once or twice.
pub fn call(random: &mut Random) -> Call {
    let draft = good(random);
    let bundle = if random.one_in(3) { draft.bytes() } else { damage(random, draft) };
    lend(random, bundle)
}

/// Memory for a bundle: enough most often.
fn lend(random: &mut Random, bundle: Vec<u8>) -> Call {
    let needed = bundle.len() / 4 * WORK_FOR_A_WORD;
    let work = match random.below(20) {
        0 => random.below(needed as u64 + 1) as usize,
        1 => needed + random.below(40) as usize,
        _ => needed,
    };
    let output = if random.one_in(20) { random.below(600) as usize } else { 1 << 16 };
    Call { bundle, work, output }
}

//! Many questions (FORMAT 7.5) in plain Rust: each answer is the reference's single lookup.

use crate::reference::{lookup, Found};

const MOST: usize = 1_024;

/// The words of all answers, or the refusal's number. So many words are lent for them.
pub fn batch(package: &[u8], version: u32, questions: &[u32], lent: usize) -> Result<Vec<u32>, u32> {
    let count = questions.len() / 3;
    let is_whole = questions.len() % 3 == 0 && count <= MOST && 4 * count <= lent;
    if !is_whole || questions.chunks(3).any(|q| q[0] >> 8 != 0x40_0000) {
        return Err(38);
    }
    Ok(questions.chunks(3).flat_map(|q| answer(package, version, q)).collect())
}

fn answer(package: &[u8], version: u32, question: &[u32]) -> [u32; 4] {
    let identity = u64::from(question[1]) | u64::from(question[2]) << 32;
    match lookup(package, version, question[0] & 0xF, identity, question[0] >> 4 & 0xF) {
        Found::Part { start, length, looks } => [0, start as u32, length as u32, looks as u32],
        Found::Absent(looks) => [1, 0, 0, looks as u32],
        Found::Refused(number) => [number, 0, 0, 0],
    }
}

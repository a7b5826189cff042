//! What stands in bundles and packages, read for people: to list it, and to say why something was refused. The proved functions don't use
//! it, and it has no say in their answers.

pub mod abbreviations;
pub mod bundle;
pub mod index;
pub mod package;
pub mod pieces;
pub mod source;
pub mod unit;

/// The number that `width` bytes from `at` on hold, or none where they are not all there.
pub fn number(bytes: &[u8], at: usize, width: usize, big: bool) -> Option<u64> {
    let field = bytes.get(at..at.checked_add(width)?)?;
    let digit = |value: u64, byte: &u8| value << 8 | u64::from(*byte);
    Some(if big { field.iter().fold(0, digit) } else { field.iter().rev().fold(0, digit) })
}

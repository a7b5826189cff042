//! Damage that knows nothing of meaning: bytes changed, ends and middles cut out, parts of two bundles joined.

use super::damage::damage;
use super::objects::{good, Draft};
use super::random::Random;
use super::{lend, Call};

/// A call whose bundle is not the good one that it was made from.
pub fn damaged_call(random: &mut Random) -> Call {
    loop {
        let draft = good(random);
        let whole = draft.bytes();
        let bundle = match random.below(8) {
            0..=3 => damage(random, draft),
            4 => flipped(random, &whole),
            5 => cut(random, &whole),
            6 => {
                let other = good(random).bytes();
                spliced(random, &whole, &other)
            }
            _ => {
                let other = good(random);
                mixed(random, draft, other)
            }
        };
        if bundle != whole {
            return lend(random, bundle);
        }
    }
}

/// One to four bits or bytes changed.
fn flipped(random: &mut Random, whole: &[u8]) -> Vec<u8> {
    let mut bytes = whole.to_vec();
    for _ in 0..random.between(1, 4) {
        let at = random.below(bytes.len() as u64) as usize;
        bytes[at] = if random.one_in(2) { bytes[at] ^ 1 << random.below(8) } else { random.any() as u8 };
    }
    bytes
}

/// An end word that is true, in the place of the last word.
fn mend(bytes: &mut Vec<u8>) {
    bytes.truncate(bytes.len() / 4 * 4);
    let words = bytes.len() as u32 / 4;
    if let Some(last) = bytes.len().checked_sub(4) {
        bytes[last..].copy_from_slice(&(3 << 28 | words).to_le_bytes());
    }
}

fn any_word(random: &mut Random, bytes: &[u8]) -> usize {
    random.below(bytes.len() as u64 / 4 + 1) as usize * 4
}

/// Only a front is left, or some words in the middle are gone.
fn cut(random: &mut Random, whole: &[u8]) -> Vec<u8> {
    if random.one_in(3) {
        return whole[..random.below(whole.len() as u64) as usize].to_vec();
    }
    let (a, b) = (any_word(random, whole), any_word(random, whole));
    let mut bytes = whole[..a.min(b)].to_vec();
    if random.one_in(2) {
        bytes.extend(&whole[a.max(b)..]);
    }
    mend(&mut bytes);
    bytes
}

/// The front of one and the back of another.
fn spliced(random: &mut Random, one: &[u8], other: &[u8]) -> Vec<u8> {
    let mut bytes = one[..any_word(random, one)].to_vec();
    bytes.extend(&other[any_word(random, other)..]);
    if !random.one_in(4) {
        mend(&mut bytes);
    }
    bytes
}

/// Objects of both, or the sections of one with bytes of the other's.
fn mixed(random: &mut Random, mut draft: Draft, other: Draft) -> Vec<u8> {
    let Some(first) = draft.objects.first().map(|o| o.word) else { return other.bytes() };
    if random.one_in(2) {
        draft.objects.extend(other.objects);
    } else {
        let foreign: Vec<(u32, Vec<u8>)> = other.objects.into_iter().flat_map(|o| o.sections).collect();
        for (code, bytes) in draft.objects.iter_mut().flat_map(|o| &mut o.sections) {
            let same = foreign.iter().find(|(c, _)| c == code);
            if let Some((_, taken)) = same.filter(|_| random.one_in(3)) {
                *bytes = taken.clone();
            }
        }
    }
    if random.one_in(2) {
        draft.objects.iter_mut().for_each(|o| o.word = first);
    }
    draft.bytes()
}

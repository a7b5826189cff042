//! The archive profile (FORMAT 10) in plain Rust, by the reference's reading of packages.

use crate::reference::{lookup, number, Bundle, Found, Index};

const MACRO: u32 = 8;
const CU_INDEX: u32 = 12;

/// 0 yes, 1 no, 21 a bad package; and as bits the conditions that are not true, in the profile's order.
pub fn profile(bytes: &[u8]) -> (u32, u32) {
    // 21 comes before anything else that a lookup refuses.
    let bad = lookup(bytes, 5, 1, 1, 1) == Found::Refused(21);
    let Some(Bundle { big, objects }) = Bundle::read(bytes).filter(|_| !bad) else { return (21, 0) };
    let object = objects.first();
    let byte = |shift: u32| object.map(|o| o.word >> shift & 0xFF);
    let index = object.and_then(|o| o.section(CU_INDEX)).map(|s| s.bytes);
    let conditions = [
        byte(0) == Some(5),
        !big,
        byte(8) == Some(4),
        byte(16) == Some(8),
        object.is_none_or(|o| o.count(MACRO) == 0),
        index.is_some(),
        index.is_none_or(|i| Index::read(i, big).is_some_and(|i| i.version == 5)),
        index.is_none_or(|i| number(i, 8, 4, big) != Some(0)),
    ];
    let failed = (0..8).filter(|i| !conditions[*i]).fold(0, |bits, i| bits | 1 << i);
    (u32::from(failed != 0), failed)
}

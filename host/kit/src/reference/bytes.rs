//! Numbers in either byte order.

/// The number that `width` bytes from `at` on hold, or none where they are not all there.
pub fn number(bytes: &[u8], at: usize, width: usize, big: bool) -> Option<u64> {
    let field = bytes.get(at..at.checked_add(width)?)?;
    let digit = |value: u64, byte: &u8| value << 8 | u64::from(*byte);
    Some(if big { field.iter().fold(0, digit) } else { field.iter().rev().fold(0, digit) })
}

/// Appends the low `width` bytes of a number.
pub fn put(out: &mut Vec<u8>, value: u64, width: usize, big: bool) {
    let bytes = value.to_le_bytes();
    if big {
        out.extend(bytes[..width].iter().rev());
    } else {
        out.extend(&bytes[..width]);
    }
}

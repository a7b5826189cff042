//! LEB128 numbers with the limits of FORMAT 3.8. Each reader gives the value and how many bytes it took.

/// The 7-bit groups, lowest first, of a number of at most `most` bytes.
fn groups(bytes: &[u8], most: usize) -> Option<(u128, usize)> {
    let mut value = 0u128;
    for (i, byte) in bytes.iter().take(most).enumerate() {
        value |= u128::from(byte & 0x7F) << (7 * i);
        if byte & 0x80 == 0 {
            return Some((value, i + 1));
        }
    }
    None
}

/// A tag, name or form: at most 3 bytes and 65,535.
pub fn short(bytes: &[u8]) -> Option<(u32, usize)> {
    let (value, taken) = groups(bytes, 3)?;
    Some((u16::try_from(value).ok()?.into(), taken))
}

/// Any other unsigned number: at most 10 bytes and 64 bits.
pub fn unsigned(bytes: &[u8]) -> Option<(u64, usize)> {
    let (value, taken) = groups(bytes, 10)?;
    Some((u64::try_from(value).ok()?, taken))
}

/// The bytes that a signed number takes: at most 10, and the value fits 64 bits with its sign.
pub fn signed(bytes: &[u8]) -> Option<usize> {
    let (value, taken) = groups(bytes, 10)?;
    // Only a tenth group has bits beyond the 63rd; they must all be the sign.
    let beyond = value >> 63;
    (taken < 10 || beyond == 0 || beyond == 0x7F).then_some(taken)
}

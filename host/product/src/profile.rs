//! The archive profile, through its C entries.

/// Code 0: in the profile. 1: not in it, with a bit for each condition that fails. 21: a bad package, with no bit.
#[repr(C)]
struct Verdict {
    code: u32,
    failed: u32,
}

extern "C" {
    fn barthovin_archive_profile(package: *const u8, package_length: usize) -> u32;
    fn barthovin_archive_profile_conditions(package: *const u8, package_length: usize) -> Verdict;
}

/// The conditions in the profile's order, one for each bit from the lowest on.
pub const CONDITIONS: [&str; 8] = [
    "its objects are of DWARF version 5",
    "it is little-endian",
    "its offset width is 4",
    "its address size is 8",
    "it has no macro section",
    "it has a cu_index",
    "its cu_index has version 5",
    "its cu_index has a row",
];

/// 0 where a package is in the archive profile, 1 where it is not, 21 for a bad package.
pub fn profile(package: &[u8]) -> u32 {
    // The entry reads the slice that it is lent, and nothing else.
    unsafe { barthovin_archive_profile(package.as_ptr(), package.len()) }
}

/// The same, and a bit for each condition that fails.
pub fn conditions(package: &[u8]) -> (u32, u32) {
    let Verdict { code, failed } = unsafe { barthovin_archive_profile_conditions(package.as_ptr(), package.len()) };
    assert!(
        (code == 1) == (failed != 0) && failed >> CONDITIONS.len() == 0,
        "conditions that don't go with the answer"
    );
    (code, failed)
}

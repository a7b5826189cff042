//! A package verified against the bundle of its files, by the proved entry.

/// The package answers otherwise.
pub const NOT_VERIFIED: u32 = 46;

/// Code 0: it answers with all that was handed in. 46: it answers otherwise at that place. 21: it is no package. Else packing's refusal of the
/// bundle, with the length needed at 18.
#[repr(C)]
#[derive(Clone, Copy, Debug, PartialEq, Eq)]
pub struct Verified {
    pub code: u32,
    pub table: u32,
    pub section: u32,
    pub identity: u64,
    pub entry: u64,
    pub length: usize,
}

extern "C" {
    fn barthovin_verify(
        bundle: *const u8,
        bundle_length: usize,
        work: *mut u32,
        work_length: usize,
        output: *mut u8,
        output_length: usize,
        package: *const u8,
        package_length: usize,
        version: u32,
    ) -> Verified;
}

/// Work and output are lent as for packing, and are zeros afterwards.
pub fn verify(bundle: &[u8], (work, output): (&mut [u32], &mut [u8]), package: &[u8], version: u32) -> Verified {
    // The entry reads and writes the slices that it is lent, and nothing else.
    unsafe {
        barthovin_verify(
            bundle.as_ptr(),
            bundle.len(),
            work.as_mut_ptr(),
            work.len(),
            output.as_mut_ptr(),
            output.len(),
            package.as_ptr(),
            package.len(),
            version,
        )
    }
}

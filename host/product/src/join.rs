//! Files joined to a bundle, and opened as packages, through the C entries.

/// Code 0: what is written has that length. 18: that length is needed. Else the refusal, with 0.
#[repr(C)]
struct Written {
    code: u32,
    length: usize,
}

extern "C" {
    fn barthovin_join(
        bundle: *mut u8,
        memory_length: usize,
        used: usize,
        file: *const u8,
        file_length: usize,
    ) -> Written;
    fn barthovin_open(file: *const u8, file_length: usize, output: *mut u8, output_length: usize) -> Written;
}

/// Joins a file's objects to the bundle in the first `used` bytes of the memory, none so far where it has no bytes: code and length. After a
/// refusal the bundle is as it was. Zeros follow it after every answer.
pub fn join(memory: &mut [u8], used: usize, file: &[u8]) -> (u32, usize) {
    // The entry reads and writes the slices that it is lent, and nothing else.
    let Written { code, length } =
        unsafe { barthovin_join(memory.as_mut_ptr(), memory.len(), used, file.as_ptr(), file.len()) };
    (code, length)
}

/// The words of the package that a file is, or that an ELF file (.dwp) has: code and length. After it the output holds them and zeros, or
/// zeros only.
pub fn open(file: &[u8], output: &mut [u8]) -> (u32, usize) {
    // The entry reads and writes the slices that it is lent, and nothing else.
    let Written { code, length } =
        unsafe { barthovin_open(file.as_ptr(), file.len(), output.as_mut_ptr(), output.len()) };
    (code, length)
}

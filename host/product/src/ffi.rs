//! The proved functions, through their C entries, which `include/barthovin.h` describes.

use crate::answer::{Asked, Found};

/// Code 0: found, at that place of the package. 1: absent. Else the refusal, with zeros.
#[repr(C)]
struct Answer {
    code: u32,
    start: usize,
    length: usize,
    looks: usize,
}

/// Code 0: the package has that length, and so many type units were skipped. 18: that length is needed. Else the refusal, with 0. But for
/// code 0 both counts are 0.
#[repr(C)]
struct Packing {
    code: u32,
    length: usize,
    repeats: usize,
    namesakes: usize,
}

/// The type units that packing skipped: those whose bytes agree with the kept one's, and the others.
#[derive(Clone, Copy, Debug, Default, PartialEq, Eq)]
pub struct Skipped {
    pub repeats: usize,
    pub namesakes: usize,
}

/// What `FromBundle` has for the lookup's code where no package was made: neither found nor absent, and no refusal of a lookup.
const NOT_LOOKED_UP: u32 = 2;

/// Packing's answer as above, and where it is 0 the lookup's; else `NOT_LOOKED_UP` and zeros.
#[repr(C)]
struct FromBundle {
    packing: u32,
    packed: usize,
    code: u32,
    start: usize,
    length: usize,
    looks: usize,
}

// A slice is passed as a pointer and a length.
extern "C" {
    fn barthovin_pack_and_look_up(
        bundle: *const u8,
        bundle_length: usize,
        work: *mut u32,
        work_length: usize,
        output: *mut u8,
        output_length: usize,
        version: u32,
        table: u32,
        identity: u64,
        section: u32,
    ) -> FromBundle;
    fn barthovin_pack_and_look_up_string(
        bundle: *const u8,
        bundle_length: usize,
        work: *mut u32,
        work_length: usize,
        output: *mut u8,
        output_length: usize,
        version: u32,
        table: u32,
        identity: u64,
        entry: u64,
    ) -> FromBundle;
    fn barthovin_pack(
        bundle: *const u8,
        bundle_length: usize,
        work: *mut u32,
        work_length: usize,
        output: *mut u8,
        output_length: usize,
    ) -> Packing;
    fn barthovin_pack_small(bundle: *const u8, bundle_length: usize, output: *mut u8, output_length: usize) -> Packing;
    fn barthovin_lookup(
        package: *const u8,
        package_length: usize,
        version: u32,
        table: u32,
        identity: u64,
        section: u32,
    ) -> Answer;
    fn barthovin_lookup_string(
        package: *const u8,
        package_length: usize,
        version: u32,
        table: u32,
        identity: u64,
        entry: u64,
    ) -> Answer;
}

/// Checks what every answer promises besides: zeros where nothing is found, and a part that lies in the package.
fn found(answer: Answer, package: &[u8]) -> Found {
    let Answer { code, start, length, looks } = answer;
    let end = start.checked_add(length).expect("a part that ends nowhere");
    assert!(end <= package.len(), "a part that ends outside the package");
    assert!(code == 0 || (start, length) == (0, 0), "a place where nothing is found");
    assert!(code < 2 || looks == 0, "looks of a refusal");
    match code {
        0 => Found::Part { start, length, looks },
        1 => Found::Absent(looks),
        number => Found::Refused(number),
    }
}

/// The part of a section that a unit contributes.
pub fn lookup(package: &[u8], version: u32, table: u32, identity: u64, section: u32) -> Found {
    // The entry reads the slice that it is lent, and nothing else.
    let answer = unsafe { barthovin_lookup(package.as_ptr(), package.len(), version, table, identity, section) };
    found(answer, package)
}

/// The string that an entry of a unit's part of str_offsets names.
pub fn lookup_string(package: &[u8], version: u32, table: u32, identity: u64, entry: u64) -> Found {
    let answer = unsafe { barthovin_lookup_string(package.as_ptr(), package.len(), version, table, identity, entry) };
    found(answer, package)
}

/// Checks what every answer promises besides: no counts where no package is made.
fn packed(answer: Packing) -> (u32, usize, Skipped) {
    let Packing { code, length, repeats, namesakes } = answer;
    assert!(code == 0 || (repeats, namesakes) == (0, 0), "counts where no package is made");
    (code, length, Skipped { repeats, namesakes })
}

/// Packs a bundle: code and length, and how many type units were skipped. After it the output holds the package and zeros, or zeros only,
/// and work zeros.
pub fn pack_counted(bundle: &[u8], work: &mut [u32], output: &mut [u8]) -> (u32, usize, Skipped) {
    // The entry reads and writes the slices that it is lent, and nothing else.
    packed(unsafe {
        let (work_start, output_start) = (work.as_mut_ptr(), output.as_mut_ptr());
        barthovin_pack(bundle.as_ptr(), bundle.len(), work_start, work.len(), output_start, output.len())
    })
}

/// The same with 5,120 words of its own, for a bundle of at most 1,024 bytes.
pub fn pack_small_counted(bundle: &[u8], output: &mut [u8]) -> (u32, usize, Skipped) {
    packed(unsafe { barthovin_pack_small(bundle.as_ptr(), bundle.len(), output.as_mut_ptr(), output.len()) })
}

/// Both without the counts.
pub fn pack(bundle: &[u8], work: &mut [u32], output: &mut [u8]) -> (u32, usize) {
    let (code, length, _) = pack_counted(bundle, work, output);
    (code, length)
}

pub fn pack_small(bundle: &[u8], output: &mut [u8]) -> (u32, usize) {
    let (code, length, _) = pack_small_counted(bundle, output);
    (code, length)
}

/// Packs a bundle and asks its package one question in the same call: the lookup's answer, or packing's code and length where no
/// package is made.
pub fn pack_and_look_up(
    bundle: &[u8],
    work: &mut [u32],
    output: &mut [u8],
    version: u32,
    table: u32,
    identity: u64,
    asked: Asked,
) -> Result<Found, (u32, usize)> {
    let (b, b_length) = (bundle.as_ptr(), bundle.len());
    let (w, w_length) = (work.as_mut_ptr(), work.len());
    let (o, o_length) = (output.as_mut_ptr(), output.len());
    // The entries read and write the slices that they are lent, and nothing else.
    let answer = unsafe {
        match asked {
            Asked::Section(section) => {
                barthovin_pack_and_look_up(b, b_length, w, w_length, o, o_length, version, table, identity, section)
            }
            Asked::Entry(entry) => barthovin_pack_and_look_up_string(
                b, b_length, w, w_length, o, o_length, version, table, identity, entry,
            ),
        }
    };
    let FromBundle { packing, packed, code, start, length, looks } = answer;
    if packing != 0 {
        assert_eq!((code, start, length, looks), (NOT_LOOKED_UP, 0, 0, 0), "an answer of no package");
        return Err((packing, packed));
    }
    Ok(found(Answer { code, start, length, looks }, &output[..packed]))
}

//! Whether files can be added later to a package that the packer wrote. The proved packer says it, which takes as long as packing; so the host looks
//! first whether a refusal is possible at all.

use crate::ffi;
use crate::names::*;
use crate::reader::bundle::Object;
use crate::reader::package::Package;
use crate::reader::pieces::{is_package_of_five, pieces};

/// The refusal of a package as the first of several files to be packed; none where more can be added to it.
pub fn closed(package: &[u8]) -> Option<u32> {
    if !may_be_refused(package) {
        return None;
    }
    // Without output nothing is written, and what is accepted is refused last of all, for that.
    let work = package.len().min(LONGEST_BUNDLE) / 4 * WORK_FOR_A_WORD;
    let (number, _) = ffi::pack(package, &mut vec![0; work], &mut []);
    Some(number).filter(|number| ![0, OUTPUT_TOO_SHORT].contains(number))
}

/// What a written package may lack as an input: room, sections, a column for a section that isn't empty, or a row for a part of str_offsets.
fn may_be_refused(package: &[u8]) -> bool {
    let Ok(read) = Package::read(package) else { return true };
    let Some(object) = &read.object else { return false };
    let lacks = |code: u32| object.count(code) == 0;
    let section = lacks(ABBREV) || lacks(INFO) || !lacks(STR_OFFSETS) && lacks(STR);
    let shared: Vec<u32> = (ABBREV..=RNGLISTS).filter(|code| !object.bytes(*code).is_empty()).collect();
    let column = [1, 2].into_iter().filter_map(|table| read.index(table)).any(|index| {
        let has = |code: &u32| index.columns.contains(code);
        index.units > 0 && !shared.iter().all(has)
    });
    package.len() > LONGEST_BUNDLE || section || column || is_package_of_five(object) && !is_filled(object)
}

/// Whether the parts of str_offsets that rows name lie one behind the other up to the section's end.
fn is_filled(object: &Object) -> bool {
    let mut end = 0;
    for piece in pieces(object) {
        if piece.offset != end {
            return false;
        }
        end += piece.size;
    }
    end == object.bytes(STR_OFFSETS).len() as u64
}

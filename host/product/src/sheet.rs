//! The index on a page, through its C entry.

use crate::reader::package::Package;

/// Code 0: the sheet has that length. Else the refusal, with 0.
#[repr(C)]
struct Written {
    code: u32,
    length: usize,
}

extern "C" {
    fn barthovin_sheet(package: *const u8, package_length: usize, page: *mut u8, page_length: usize) -> Written;
}

/// The bytes of a line: table, identity, section, offset, size, newline.
pub const LINE: usize = 40;

/// Writes the sheet of a package on a page: code and length. After it the page holds the sheet and zeros, or zeros only.
pub fn write(package: &[u8], page: &mut [u8]) -> (u32, usize) {
    // The entry reads and writes the slices that it is lent, and nothing else.
    let Written { code, length } =
        unsafe { barthovin_sheet(package.as_ptr(), package.len(), page.as_mut_ptr(), page.len()) };
    (code, length)
}

/// The sheet of a package, or the refusal's number.
pub fn sheet(package: &[u8]) -> Result<Vec<u8>, u32> {
    // How long it is the host works out; were it wrong, the page would be refused.
    let lines = Package::read(package).map_or(0, |read| {
        let tables = [1, 2].into_iter().filter_map(|table| read.index(table));
        tables.map(|index| index.units * index.columns.len()).sum()
    });
    let mut page = vec![0; LINE * lines];
    match write(package, &mut page) {
        (0, length) => {
            page.truncate(length);
            Ok(page)
        }
        (number, _) => Err(number),
    }
}

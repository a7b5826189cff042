//! The parts of str_offsets that have a header each.

use super::bundle::Object;
use super::index::Index;
use crate::names::{CU_INDEX, STR_OFFSETS, TU_INDEX};

/// A part, and the first row that names it; without one it is the whole section.
#[derive(Clone, Copy, Debug, PartialEq, Eq)]
pub struct Piece {
    pub offset: u64,
    pub size: u64,
    /// The section code of the index, and the row.
    pub named_by: Option<(u32, u32)>,
}

/// A version 5 object with an index: each part of its str_offsets has a header of its own, and each kept unit needs a row.
pub fn is_package_of_five(object: &Object) -> bool {
    object.encoding.version() == 5 && object.count(CU_INDEX) + object.count(TU_INDEX) > 0
}

/// In a version 5 object with an index the parts that its rows name, each once and the empty ones left out, in order of offset; else the
/// whole section. They are not judged.
pub fn pieces(object: &Object) -> Vec<Piece> {
    if !is_package_of_five(object) {
        return vec![Piece { offset: 0, size: object.bytes(STR_OFFSETS).len() as u64, named_by: None }];
    }
    let mut pieces = Vec::new();
    for code in [CU_INDEX, TU_INDEX] {
        let Ok(index) = Index::read(object.bytes(code), object.encoding.big) else { continue };
        for row in 1..=index.units as u32 {
            let part = index.part(row, STR_OFFSETS).filter(|(_, size)| *size > 0);
            pieces.extend(part.map(|(offset, size)| Piece { offset, size, named_by: Some((code, row)) }));
        }
    }
    pieces.sort_by_key(|piece| (piece.offset, piece.size));
    pieces.dedup_by_key(|piece| (piece.offset, piece.size));
    pieces
}

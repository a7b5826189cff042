//! Numbers that callers meet, with their names.

/// The longest bundle that packing takes, in bytes.
pub const LONGEST_BUNDLE: usize = 4_194_304;
/// The longest package that lookups take, in bytes.
pub const LONGEST_PACKAGE: usize = 117_440_512;
/// The longest section of a package, in bytes.
pub const LONGEST_SECTION: usize = 8_388_607;
/// The words of work that packing asks for, for each word of the bundle.
pub const WORK_FOR_A_WORD: usize = 20;
/// The refusal that returns the length needed.
pub const OUTPUT_TOO_SHORT: u32 = 18;

pub const INFO: u32 = 1;
pub const TYPES: u32 = 2;
pub const ABBREV: u32 = 3;
pub const STR_OFFSETS: u32 = 6;
pub const MACRO: u32 = 8;
pub const RNGLISTS: u32 = 10;
pub const STR: u32 = 11;
pub const CU_INDEX: u32 = 12;
pub const TU_INDEX: u32 = 13;

/// The names of section codes, from 1 on.
pub const SECTIONS: [&str; 13] = [
    "info",
    "types",
    "abbrev",
    "line",
    "loc",
    "str_offsets",
    "macinfo",
    "macro",
    "loclists",
    "rnglists",
    "str",
    "cu_index",
    "tu_index",
];

/// A section's name by its code, which is from 1 to 13.
pub fn section_name(code: u32) -> &'static str {
    SECTIONS[code as usize - 1]
}

/// The name that object files have for it: the indexes' names have no `.dwo`.
pub fn file_name(code: u32) -> String {
    format!(".debug_{}{}", section_name(code), if code <= STR { ".dwo" } else { "" })
}

/// A section's code by its name, in any case, with or without `.debug_` and `.dwo`.
pub fn section_code(name: &str) -> Option<u32> {
    let name = name.to_ascii_lowercase();
    let bare = name.strip_prefix('.').unwrap_or(&name);
    let bare = bare.strip_prefix("debug_").unwrap_or(bare);
    let bare = bare.strip_suffix(".dwo").unwrap_or(bare);
    SECTIONS.iter().position(|known| *known == bare).map(|at| at as u32 + 1)
}

/// A table's name by its number, 1 or 2.
pub fn table_name(table: u32) -> &'static str {
    if table == 1 {
        "cu"
    } else {
        "tu"
    }
}

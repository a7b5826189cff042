//! What a lookup is asked and what it answers.

/// A section by its code, or an entry of str_offsets by its number.
#[derive(Clone, Copy, Debug, PartialEq, Eq)]
pub enum Asked {
    Section(u32),
    Entry(u64),
}

/// A part lies at `start` of the package; `looks` is the number of slots looked at.
#[derive(Clone, Copy, Debug, PartialEq, Eq)]
pub enum Found {
    Refused(u32),
    Absent(usize),
    Part { start: usize, length: usize, looks: usize },
}

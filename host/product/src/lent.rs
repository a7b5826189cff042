//! Memory to lend to the proved functions, zeros at first. Packing touches all that it is lent: with a fault for every 4 KB the system would
//! be longer at work than the packer, so that long memory is mapped and huge pages are asked for. Linux.

use std::ops::{Deref, DerefMut};
use std::ptr;

/// A huge page. What is shorter is allocated as usual.
const HUGE: usize = 1 << 21;

const READ_AND_WRITE: i32 = 1 | 2;
const PRIVATE_AND_ANONYMOUS: i32 = 0x2 | 0x20;
const NO_FILE: i32 = -1;
const HUGE_PAGES: i32 = 14;

extern "C" {
    fn mmap(wanted: *mut u8, bytes: usize, access: i32, kind: i32, file: i32, offset: i64) -> *mut u8;
    fn munmap(start: *mut u8, bytes: usize) -> i32;
    fn madvise(start: *mut u8, bytes: usize, advice: i32) -> i32;
}

/// Numbers that are zero where all their bytes are.
pub trait Number: Copy {
    const ZERO: Self;
}

impl Number for u8 {
    const ZERO: u8 = 0;
}

impl Number for u32 {
    const ZERO: u32 = 0;
}

/// What the system mapped, and where a huge page starts in it.
struct Mapping {
    mapped: *mut u8,
    bytes: usize,
    start: *mut u8,
}

impl Mapping {
    /// Room for so many bytes, or none where the system has none.
    fn new(room: usize) -> Option<Mapping> {
        let room = room.checked_next_multiple_of(HUGE)?;
        let bytes = room.checked_add(HUGE)?;
        // It takes nothing that is in use: the system chooses the place.
        let mapped = unsafe { mmap(ptr::null_mut(), bytes, READ_AND_WRITE, PRIVATE_AND_ANONYMOUS, NO_FILE, 0) };
        if mapped as isize == -1 {
            return None;
        }
        let start = mapped.wrapping_add(mapped.align_offset(HUGE));
        // Where the system has no huge pages it says so, and the pages are small ones.
        let _ = unsafe { madvise(start, room, HUGE_PAGES) };
        Some(Mapping { mapped, bytes, start })
    }
}

impl Drop for Mapping {
    fn drop(&mut self) {
        // All of what was mapped, and nothing points into it any more.
        let _ = unsafe { munmap(self.mapped, self.bytes) };
    }
}

enum Held<T> {
    Owned(Vec<T>),
    Mapped(Mapping),
}

/// So many numbers, and room for more.
pub struct Lent<T: Number> {
    held: Held<T>,
    length: usize,
    room: usize,
}

impl<T: Number> Lent<T> {
    pub fn zeros(length: usize) -> Lent<T> {
        let bytes = length.saturating_mul(size_of::<T>());
        let mapped = if bytes < HUGE { None } else { Mapping::new(bytes) };
        Lent { held: mapped.map_or_else(|| Held::Owned(vec![T::ZERO; length]), Held::Mapped), length, room: length }
    }

    /// None yet. Room that stays unused takes no memory where it is long.
    pub fn with_room(room: usize) -> Lent<T> {
        Lent { length: 0, ..Lent::zeros(room) }
    }

    /// Keeps so many from the front.
    pub fn truncate(&mut self, length: usize) {
        self.length = self.length.min(length);
    }

    /// Makes it longer, by zeros.
    pub fn extend_to(&mut self, length: usize) {
        if length > self.room {
            let mut more = Lent::zeros(length.max(2 * self.room));
            more[..self.length].copy_from_slice(self);
            *self = Lent { length: self.length, ..more };
        }
        let old = self.length;
        self.length = old.max(length);
        self[old..].fill(T::ZERO);
    }

    /// Appends some.
    pub fn extend(&mut self, numbers: &[T]) {
        let old = self.length;
        self.extend_to(old + numbers.len());
        self[old..].copy_from_slice(numbers);
    }
}

impl<T: Number> From<Vec<T>> for Lent<T> {
    fn from(numbers: Vec<T>) -> Lent<T> {
        let length = numbers.len();
        Lent { held: Held::Owned(numbers), length, room: length }
    }
}

impl<T: Number> Deref for Lent<T> {
    type Target = [T];

    fn deref(&self) -> &[T] {
        match &self.held {
            Held::Owned(numbers) => &numbers[..self.length],
            // The mapping has room for them all, starts at a page, and was filled with zeros by the system.
            Held::Mapped(mapping) => unsafe { std::slice::from_raw_parts(mapping.start.cast(), self.length) },
        }
    }
}

impl<T: Number> DerefMut for Lent<T> {
    fn deref_mut(&mut self) -> &mut [T] {
        match &mut self.held {
            Held::Owned(numbers) => &mut numbers[..self.length],
            Held::Mapped(mapping) => unsafe { std::slice::from_raw_parts_mut(mapping.start.cast(), self.length) },
        }
    }
}

#[cfg(test)]
mod tests {
    use super::*;

    /// Short and long ones, around the length of a huge page.
    #[test]
    fn holds_so_many_zeros() {
        for length in [0, 1, 5, HUGE / 4 - 1, HUGE / 4, HUGE / 4 + 1, HUGE, 3 * HUGE + 7] {
            let mut lent: Lent<u32> = Lent::zeros(length);
            assert_eq!(lent.len(), length);
            assert!(lent.iter().all(|n| *n == 0));
            lent.fill(7);
            lent.truncate(length / 2);
            assert_eq!(lent.to_vec(), vec![7; length / 2]);
            lent.truncate(length);
            assert_eq!(lent.len(), length / 2);
        }
    }

    /// Within its room and beyond it, short and long; what was cut off comes back as zeros.
    #[test]
    fn grows_by_zeros() {
        for room in [0, 10, 2 * HUGE] {
            let mut lent: Lent<u8> = Lent::with_room(room);
            assert_eq!(lent.len(), 0);
            lent.extend(&[1, 2, 3, 4, 5, 6, 7]);
            lent.truncate(5);
            lent.extend_to(9);
            lent.extend(&[8; 3]);
            assert_eq!(lent[..], [1, 2, 3, 4, 5, 0, 0, 0, 0, 8, 8, 8]);
            lent.extend_to(3 * HUGE);
            assert!(lent.len() == 3 * HUGE && lent[..5] == [1, 2, 3, 4, 5] && lent[12..].iter().all(|n| *n == 0));
        }
        assert_eq!(Lent::from(vec![7u32; 3])[..], [7; 3]);
    }

    #[test]
    fn long_memory_starts_at_a_huge_page() {
        let lent: Lent<u8> = Lent::zeros(HUGE + 1);
        assert_eq!(lent.as_ptr().align_offset(HUGE), 0);
    }
}

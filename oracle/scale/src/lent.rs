//! Memory to lend to a call: it lies between two pages that nothing may touch, and is filled with a
//! pattern, so that neither a read beyond its ends nor a stray write stays unseen.

use std::ffi::{c_int, c_void};
use std::mem::size_of;
use std::ops::Range;

const PAGE: usize = 4096;

/// This many entries on each side of the part lent are looked at after each call.
const GUARD: usize = 64;

/// Where in the memory a part is lent.
#[derive(Clone, Copy, Debug, PartialEq, Eq)]
pub enum Place {
    /// It begins right behind a page that nothing may touch.
    Front,
    /// Entries of the pattern stand on both sides.
    Middle,
    /// It ends right before a page that nothing may touch.
    Back,
}

/// A row of entries of which parts are lent. It is kept to the program's end.
pub struct Lent<T: 'static> {
    row: &'static mut [T],
    pattern: Vec<T>,
}

impl<T: Copy + PartialEq> Lent<T> {
    /// At least `least` entries, each with the pattern's value for its place.
    pub fn new(least: usize, pattern: fn(usize) -> T) -> Self {
        // A multiple of the page's bytes in entries is one in bytes: both ends meet their pages.
        let count = least.next_multiple_of(PAGE);
        let pattern: Vec<T> = (0..count).map(pattern).collect();
        let first = fenced(count * size_of::<T>()).cast::<T>();
        // SAFETY: the memory is new, of this size, aligned to a page, and every entry is written
        // before the slice is made.
        let row = unsafe {
            first.copy_from_nonoverlapping(pattern.as_ptr(), count);
            std::slice::from_raw_parts_mut(first, count)
        };
        Lent { row, pattern }
    }

    /// The entries of a part of this length.
    pub fn range(&self, place: Place, length: usize) -> Range<usize> {
        let spare = self.row.len() - length;
        let start = match place {
            Place::Front => 0,
            Place::Middle => spare / 2,
            Place::Back => spare,
        };
        start..start + length
    }

    pub fn part(&mut self, part: &Range<usize>) -> &mut [T] {
        &mut self.row[part.clone()]
    }

    /// Lends a part with this content.
    pub fn write(&mut self, place: Place, content: &[T]) -> Range<usize> {
        let part = self.range(place, content.len());
        self.part(&part).copy_from_slice(content);
        part
    }

    /// Whether the part begins with `front`, and all else in it and about it is as it was.
    pub fn holds(&self, part: &Range<usize>, front: &[T]) -> bool {
        let Range { start, end } = self.about(part);
        let behind = part.start + front.len();
        self.row[part.start..behind] == *front
            && self.row[start..part.start] == self.pattern[start..part.start]
            && self.row[behind..end] == self.pattern[behind..end]
    }

    /// Puts the pattern back.
    pub fn restore(&mut self, part: &Range<usize>) {
        let about = self.about(part);
        self.row[about.clone()].copy_from_slice(&self.pattern[about]);
    }

    /// Whether the whole row is the pattern.
    pub fn is_restored(&self) -> bool {
        *self.row == self.pattern[..]
    }

    fn about(&self, part: &Range<usize>) -> Range<usize> {
        part.start.saturating_sub(GUARD)..self.row.len().min(part.end + GUARD)
    }
}

const PROT_NONE: c_int = 0;
const PROT_READ_WRITE: c_int = 3;
const MAP_PRIVATE_ANONYMOUS: c_int = 0x22;

extern "C" {
    fn mmap(
        at: *mut c_void,
        length: usize,
        rights: c_int,
        flags: c_int,
        file: c_int,
        offset: i64,
    ) -> *mut c_void;
    fn mprotect(at: *mut c_void, length: usize, rights: c_int) -> c_int;
}

/// New memory of this many bytes, a multiple of the page's, between two pages that nothing may
/// touch.
fn fenced(bytes: usize) -> *mut u8 {
    // SAFETY: a new mapping is asked for, and the changed pages lie within it.
    unsafe {
        let all = mmap(
            std::ptr::null_mut(),
            bytes + 2 * PAGE,
            PROT_NONE,
            MAP_PRIVATE_ANONYMOUS,
            -1,
            0,
        );
        assert!(all as isize != -1, "there is no memory");
        let inner = all.cast::<u8>().add(PAGE);
        let failed = mprotect(inner.cast(), bytes, PROT_READ_WRITE);
        assert_eq!(failed, 0, "the memory's rights cannot be set");
        inner
    }
}

#[cfg(test)]
mod tests {
    use super::*;

    const PLACES: [Place; 3] = [Place::Front, Place::Middle, Place::Back];

    #[test]
    fn both_ends_meet_their_pages() {
        let lent = Lent::new(1, |place| place as u64);
        let front = lent.range(Place::Front, 3);
        let back = lent.range(Place::Back, 3);
        assert_eq!((front.start, back.end), (0, lent.row.len()));
        assert_eq!(lent.row.as_ptr() as usize % PAGE, 0);
        assert_eq!(lent.row.as_ptr_range().end as usize % PAGE, 0);
    }

    #[test]
    fn every_entry_about_a_part_is_looked_at() {
        let mut lent = Lent::new(1, |place| place as u8);
        for place in PLACES {
            let part = lent.write(place, &[7; 20]);
            assert!(lent.holds(&part, &[7; 20]));
            for at in lent.about(&part) {
                let kept = lent.row[at];
                lent.row[at] = !kept;
                assert!(!lent.holds(&part, &[7; 20]), "{place:?}, {at}");
                lent.row[at] = kept;
            }
            lent.restore(&part);
            assert!(lent.holds(&part, &[]) && lent.is_restored());
        }
    }
}

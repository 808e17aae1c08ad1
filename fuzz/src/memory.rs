//! Lent memory that ends at a page which may not be touched: a step past a slice's end stops the run.

use crate::system::{mmap, mprotect, PRIVATE, READ, WRITE};
use reference::Level;
use std::ptr::null_mut;

const PAGE: usize = 4096;

/// Some pages, of which the last so many bytes are lent, and a barred one behind them.
pub struct Guarded {
    start: *mut u8,
    size: usize,
    lent: usize,
}

impl Guarded {
    /// Room for so many bytes.
    pub fn new(bytes: usize) -> Guarded {
        let size = bytes.next_multiple_of(PAGE).max(PAGE);
        // The pages are new, and no other code knows them.
        unsafe {
            let start = mmap(null_mut(), size + PAGE, READ | WRITE, PRIVATE, -1, 0);
            assert_ne!(start as isize, -1, "no memory");
            assert_eq!(mprotect(start.add(size), PAGE, 0), 0, "no barred page");
            Guarded { start: start.cast(), size, lent: 0 }
        }
    }

    /// Lends the last so many bytes from now on.
    pub fn lend(&mut self, length: usize) -> &mut [u8] {
        assert!(length <= self.size);
        self.lent = length;
        self.bytes()
    }

    /// The last so many levels likewise.
    pub fn lend_levels(&mut self, length: usize) -> &mut [Level] {
        self.lend(size_of::<Level>() * length);
        self.levels()
    }

    /// The bytes that are lent.
    pub fn bytes(&mut self) -> &mut [u8] {
        unsafe { std::slice::from_raw_parts_mut(self.start.add(self.size - self.lent), self.lent) }
    }

    /// The levels that are lent. The barred page begins at a multiple of a level's size, so they do too.
    pub fn levels(&mut self) -> &mut [Level] {
        let count = self.lent / size_of::<Level>();
        unsafe { std::slice::from_raw_parts_mut(self.start.add(self.size - self.lent).cast(), count) }
    }
}

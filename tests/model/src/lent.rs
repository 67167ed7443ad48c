//! Bytes to lend: they end at a page of memory that nobody may touch, and marked bytes stand before them.

use std::ops::{Deref, DerefMut};

extern "C" {
    fn mmap(at: *mut u8, length: usize, protection: i32, flags: i32, file: i32, offset: i64) -> *mut u8;
    fn mprotect(at: *mut u8, length: usize, protection: i32) -> i32;
    fn munmap(at: *mut u8, length: usize) -> i32;
}

const READ_WRITE: i32 = 3;
const PRIVATE_ANONYMOUS: i32 = 0x22;
const MEMORY_PAGE: usize = 4096;
const MARK: u8 = 0xA5;

/// A page of memory out of reach, marked bytes, the lent bytes, a page out of reach.
pub struct Lent {
    start: *mut u8,
    mapped: usize,
    from: usize,
    length: usize,
}

impl Lent {
    pub fn new(bytes: &[u8]) -> Lent {
        let room = (bytes.len() + 64).next_multiple_of(MEMORY_PAGE);
        let mapped = room + 2 * MEMORY_PAGE;
        let start = unsafe { mmap(std::ptr::null_mut(), mapped, READ_WRITE, PRIVATE_ANONYMOUS, -1, 0) };
        assert!(start as isize != -1, "no memory to lend");
        let from = MEMORY_PAGE + room - bytes.len();
        unsafe {
            start.add(MEMORY_PAGE).write_bytes(MARK, room);
            assert_eq!(0, mprotect(start, MEMORY_PAGE, 0));
            assert_eq!(0, mprotect(start.add(MEMORY_PAGE + room), MEMORY_PAGE, 0));
        }
        let mut lent = Lent { start, mapped, from, length: bytes.len() };
        lent.copy_from_slice(bytes);
        lent
    }

    /// The lent bytes, an even number of them, as numbers of 16 bits.
    pub fn words(&self) -> &[u16] {
        assert!(self.length.is_multiple_of(2));
        unsafe { std::slice::from_raw_parts(self.start.add(self.from).cast(), self.length / 2) }
    }

    /// The marked bytes are as they were.
    pub fn intact(&self) -> bool {
        let marks = unsafe { std::slice::from_raw_parts(self.start.add(MEMORY_PAGE), self.from - MEMORY_PAGE) };
        marks.iter().all(|&m| m == MARK)
    }
}

impl Deref for Lent {
    type Target = [u8];
    fn deref(&self) -> &[u8] {
        unsafe { std::slice::from_raw_parts(self.start.add(self.from), self.length) }
    }
}

impl DerefMut for Lent {
    fn deref_mut(&mut self) -> &mut [u8] {
        unsafe { std::slice::from_raw_parts_mut(self.start.add(self.from), self.length) }
    }
}

impl Drop for Lent {
    fn drop(&mut self) {
        unsafe { munmap(self.start, self.mapped) };
    }
}

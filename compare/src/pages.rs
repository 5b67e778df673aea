//! Memory of whole pages between two that may not be touched: whoever reads or writes just outside it faults.

use std::ffi::c_void;
use std::ptr::null_mut;
use std::slice::{from_raw_parts, from_raw_parts_mut};

pub const PAGE: usize = 4096;

const NO_ACCESS: i32 = 0;
const READ_AND_WRITE: i32 = 3;
const PRIVATE_ANONYMOUS: i32 = 0x22;

unsafe extern "C" {
    fn mmap(at: *mut c_void, bytes: usize, access: i32, flags: i32, file: i32, offset: i64) -> *mut c_void;
    fn mprotect(at: *mut c_void, bytes: usize, access: i32) -> i32;
    fn munmap(at: *mut c_void, bytes: usize) -> i32;
}

pub struct Pages {
    start: *mut u8,
    count: usize,
}

impl Pages {
    fn new(count: usize) -> Self {
        // SAFETY: the system chooses a place where nothing is.
        let all = unsafe { mmap(null_mut(), (count + 2) * PAGE, NO_ACCESS, PRIVATE_ANONYMOUS, -1, 0) };
        assert!(all as isize != -1, "no memory");
        let start = all.cast::<u8>().wrapping_add(PAGE);
        // SAFETY: the pages between the first and the last of those just taken.
        let opened = count == 0 || unsafe { mprotect(start.cast(), count * PAGE, READ_AND_WRITE) } == 0;
        assert!(opened, "no access to the memory");
        Self { start, count }
    }

    /// Makes it as many pages as so many bytes need.
    pub fn fit(&mut self, bytes: usize) {
        let count = bytes.div_ceil(PAGE);
        if count != self.count {
            *self = Self::new(count);
        }
    }

    pub fn bytes(&self) -> usize {
        self.count * PAGE
    }

    #[cfg(ours)]
    pub fn start(&self) -> *mut u8 {
        self.start
    }

    pub fn words(&self) -> &[u32] {
        // SAFETY: the pages are this value's own and begin at a page's start; any bits are a word.
        unsafe { from_raw_parts(self.start.cast(), self.bytes() / 4) }
    }

    pub fn words_mut(&mut self) -> &mut [u32] {
        // SAFETY: as above.
        unsafe { from_raw_parts_mut(self.start.cast(), self.bytes() / 4) }
    }

    pub fn bytes_mut(&mut self) -> &mut [u8] {
        // SAFETY: as above.
        unsafe { from_raw_parts_mut(self.start, self.bytes()) }
    }
}

impl Default for Pages {
    fn default() -> Self {
        Self::new(0)
    }
}

impl Drop for Pages {
    fn drop(&mut self) {
        // SAFETY: what `new` took, given back once.
        unsafe { munmap(self.start.wrapping_sub(PAGE).cast(), (self.count + 2) * PAGE) };
    }
}

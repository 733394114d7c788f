//! Bytes in memory that cannot be written, between pages that cannot be read: a call that writes a byte of them, or reads
//! past their end, ends the test with a signal.

use std::ffi::{c_int, c_void};
use std::ptr::null_mut;
use std::slice::{from_raw_parts, from_raw_parts_mut};

const PAGE: usize = 4096;

// As Linux on x86-64 numbers them.
const NO_ACCESS: c_int = 0;
const READ: c_int = 1;
const READ_AND_WRITE: c_int = 3;
const PRIVATE_AND_OF_NO_FILE: c_int = 0x22;

extern "C" {
    fn mmap(at: *mut c_void, length: usize, access: c_int, flags: c_int, file: c_int, offset: i64) -> *mut c_void;
    fn mprotect(at: *mut c_void, length: usize, access: c_int) -> c_int;
    fn munmap(at: *mut c_void, length: usize) -> c_int;
}

/// A copy of some bytes, which ends right before a page that cannot be read. Where it fills its pages, it begins right after
/// one too.
pub struct Sealed {
    mapped: *mut c_void,
    pages: usize,
    length: usize,
}

impl Sealed {
    pub fn of(bytes: &[u8]) -> Sealed {
        let (length, pages) = (bytes.len(), bytes.len().div_ceil(PAGE));
        // SAFETY: new pages, wherever the system puts them.
        let mapped = unsafe { mmap(null_mut(), PAGE * (pages + 2), NO_ACCESS, PRIVATE_AND_OF_NO_FILE, -1, 0) };
        assert_ne!(mapped as isize, -1, "no pages");
        let sealed = Sealed { mapped, pages, length };
        sealed.allow(READ_AND_WRITE);
        // SAFETY: pages that may be written, and that nobody else has.
        unsafe { from_raw_parts_mut(sealed.start(), length) }.copy_from_slice(bytes);
        sealed.allow(READ);
        sealed
    }

    pub fn bytes(&self) -> &[u8] {
        // SAFETY: pages that may be read, for as long as this has them.
        unsafe { from_raw_parts(self.start(), self.length) }
    }

    /// Where the bytes start: so far from the end of the last page that may be read.
    fn start(&self) -> *mut u8 {
        self.mapped.cast::<u8>().wrapping_add(PAGE * (self.pages + 1) - self.length)
    }

    /// Sets what may be done with the pages between the first and the last one.
    fn allow(&self, access: c_int) {
        let inner = self.mapped.wrapping_byte_add(PAGE);
        // SAFETY: pages of this mapping.
        let status = unsafe { mprotect(inner, PAGE * self.pages, access) };
        assert_eq!(status, 0, "the pages' access is not changed");
    }
}

impl Drop for Sealed {
    fn drop(&mut self) {
        // SAFETY: the whole mapping, which nobody has any more.
        unsafe { munmap(self.mapped, PAGE * (self.pages + 2)) };
    }
}
